"""Reads the blocks of a crate's wrong-bodies.edits:

    file: src/counts.rt

    holds_again_in_a_table
      fn: files::Files::hold_again
      answer: invariant_of-self
      old: self.rows.add_ref(place, file);
      new: self.rows.add_ref(&Place::Table, file);

The lines of a block are indented below the name of its mistake. Each text after 'old: ' stands once
in the file that the line 'file:' above names, and the text of 'new:' takes its place. Blocks are in
the order of their files, and of their old texts in a file. A block may first have

    fn: PATH        the function whose contract must refuse it: the text need then stand once in it
    answer: NAME    the one stored answer of the changed function that no longer fits
    open: NAME      the one goal, without a stored answer, that the tactics of a check leave open
    goal: NAME      the one goal that `search rules`, which gives up sooner, no longer proves

With one of the last three, that goal alone is tried: to try all takes most of the time. With
'goal:' the true function stands beside the wrong one, and the same words have to prove it there.
"""
import re
from dataclasses import dataclass, field
from typing import Dict, List, Optional, Tuple

GOALS = "answer", "open", "goal"


@dataclass
class Block:
    """A wrong body as it is written."""

    name: str
    # The line of its name, from 1 on.
    line: int
    file: str
    # The text behind 'fn:' and the other words, by the word.
    named: Dict[str, str] = field(default_factory=dict)
    # Old texts with their new ones.
    pairs: List[Tuple[str, str]] = field(default_factory=list)
    # An old text that still waits for its new one.
    old: Optional[str] = None
    # The first thing that is wrong with it, or nothing.
    fault: str = ""

    def __post_init__(self) -> None:
        if not re.fullmatch(r"[a-z]\w*", self.name):
            self.blame("a block begins with a name, and its other lines are indented")
        elif not self.file:
            self.blame("no 'file:' stands above it")

    def blame(self, why: str) -> None:
        self.fault = self.fault or why

    def read(self, line: str) -> None:
        """Reads an indented line."""
        word, _, rest = line.lstrip().partition(":")
        text = rest[1:] if rest.startswith(" ") else rest
        if word == "old" and self.old is None and text:
            self.old = text
        elif word == "new" and self.old is not None:
            self.pairs.append((self.old, text))
            self.old = None
        elif word in ("old", "new"):
            self.blame("each 'old:' has a text, and a 'new:' behind it")
        elif word not in ("fn", *GOALS):
            self.blame(f"'{word}:' is no line of a block")
        elif word in self.named or not text:
            self.blame(f"'{word}:' names one thing")
        else:
            self.named[word] = text.strip()

    def end(self) -> None:
        """Looks for what is missing, or too much, once all its lines are read."""
        if self.old is not None:
            self.blame("an 'old:' has no 'new:'")
        if not self.pairs:
            self.blame("it has no 'old:' and 'new:'")
        if len(self.named.keys() & {*GOALS}) > 1:
            self.blame("it names more than one answer or goal")


def read_blocks(text: str) -> List[Block]:
    """Returns the blocks of a file with this text, in its order."""
    file, block, found = "", None, []
    for number, line in enumerate(text.split("\n"), 1):
        if line.startswith("file: "):
            file, block = line[len("file: ") :], None
        elif line.strip():
            is_name = not line[0].isspace()
            if is_name or not block:
                block = Block(line if is_name else "", number, file)
                found.append(block)
            if not is_name:
                block.read(line)
    first: Dict[str, Block] = {}
    for it in found:
        it.end()
        if first.setdefault(it.name, it) is not it:
            it.blame(f"line {first[it.name].line} has a block of this name")
    return found
