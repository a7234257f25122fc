"""The list of events, docs/SCRIPTS.md: its rows, for what writes them elsewhere or compares them."""
import os
import re
from typing import Dict, List, NamedTuple

ROOT = os.path.dirname(os.path.dirname(os.path.realpath(__file__)))
LIST = "docs/SCRIPTS.md"
HEAD = "Line | In short | What it does, and its reply | Refused by, in this order"
# A refusal in the list, and what it means in its row.
REFUSAL = r"`(E[A-Z]+)`(?: \(([^()]*)\))?"


class Unreadable(Exception):
    """A source does not have the form in which its events are looked for."""


class Refusal(NamedTuple):
    error: str
    # Its meaning in this row, or nothing.
    meaning: str


class Row(NamedTuple):
    """A row of the list."""

    # The words of the line, as 'P dup N'.
    line: str
    in_short: str
    refusals: List[Refusal]
    replies: List[str]
    # The first version of scripts that has it.
    version: int

    @property
    def errors(self) -> List[str]:
        return [it.error for it in self.refusals]

    @property
    def is_of_process(self) -> bool:
        return self.line.startswith("P ")


def text_of(path: str) -> str:
    with open(f"{ROOT}/{path}", encoding="utf-8") as file:
        return file.read()


def table(path: str, head: str) -> List[List[str]]:
    """The cells of each row of the table that has this head, with or without spaces beside them."""
    text, line = (re.sub(r" *\| *", "|", it) for it in (text_of(path), f"\n|{head}|\n"))
    rows = text.partition(line)[2].partition("\n\n")[0].splitlines()[1:]
    if not rows:
        raise Unreadable(f"{path}: no table has the head: {head}")
    return [row[1:-1].split("|") for row in rows]


def verb_of(line: str) -> str:
    """The word of a line that says what happens. A process may come before it."""
    return line.split()[line.startswith("P ")]


def events() -> Dict[str, Row]:
    """The rows of the list, by verb."""
    found: Dict[str, Row] = {}
    for line, in_short, does, refused in table(LIST, HEAD):
        verb = verb_of(line.strip("`"))
        if verb in found or not re.fullmatch(rf"{REFUSAL}(?:, {REFUSAL})*", refused):
            raise Unreadable(f"{LIST}: {verb} has two rows, or no list of refusals: {refused}")
        refusals = [Refusal(*it) for it in re.findall(REFUSAL, refused)]
        replies = re.findall(r"`([^`]+)`", does.partition("Reply: ")[2])
        later = re.match(r"\*Version (\d)\.\*", does)
        found[verb] = Row(line.strip("`"), in_short, refusals, replies, int(later[1]) if later else 1)
    return found
