"""Judges wrong bodies by what a check says of the functions that they change or name, and of those
alone: a proof rests on the contracts of what its function calls, and not on their bodies.

A wrong body passes if a goal refuses it. It fails if it is proved; if it is refused only since a
proof names what the edit took away; if the goal that it names is not proved of the true function;
if its block is malformed or does not apply; or if it does not compile.
"""
import re
from typing import List, NamedTuple, Optional

from .copies import FAULT, Copy
from .edits import Edit
from .functions import Function

# What can come of a wrong body. Only the first is as it should be.
REFUSED = "refused"
TEXT = "REFUSED BY TEXT ALONE (rewrite it so that a value changes and the names stay)"
PROVED = "NOT REFUSED"
FITS = "NOT REFUSED BY THE ANSWER OR GOAL THAT IT NAMES"
UNREAD = "CANNOT BE READ"
UNTOLD = "NOT JUDGED"
MISFIT = "NOT TRIED"
# What a proof says that names what the edit took away.
NAMES = re.compile(
    r"has no field|is not in scope|has no `|was not admitted|was rejected|\(nearest: "
)
# How a check says that a function calls what is not proved.
CALLS = "it calls "
# What is said of a source's own text, and not of a goal.
UNREADABLE = re.compile(
    r"(\./)?(src|specs)/\S+: error(?:\[|: (?!`)|.*(is not in scope|has no field|is no name))"
)


class Verdict(NamedTuple):
    """What came of a wrong body, and the line that says so."""

    kind: str
    why: str = ""


def is_open_goal(line: str, function: Function) -> bool:
    """Whether a line of a check says that a goal of this function is not proved."""
    note = re.match(r"note: (\S+):(\d+):\d+: it is not proved", line)
    is_of_file = bool(note) and note[1] == function.file
    return is_of_file and function.top < int(note[2]) <= function.end + 1


class Check(NamedTuple):
    """What a check of a copy of a crate said."""

    crate: str
    copy: Copy
    status: int
    lines: List[str]

    def could_read(self) -> bool:
        """Whether the prover reached the functions."""
        is_done = self.lines[-1].startswith(("only=", "logic="))
        return is_done and not any(map(UNREADABLE.match, self.lines))

    def verdict(self, edit: Edit) -> Optional[Verdict]:
        """What it says of an edit; nothing where its functions only call what is not proved."""
        if not self.could_read():
            errors = (it for it in self.lines if re.search(r"\berror[\[:]", it))
            return Verdict(UNREAD, next(errors, self.lines[-1]))
        if not edit.changed:
            return self.of_crate()
        found = [self.of_judge(edit, it) for it in self.copy.judges[edit]]
        kinds = REFUSED, TEXT, FITS, UNREAD, UNTOLD
        told = [it for kind in kinds for it in found if it and it.kind == kind]
        return told[0] if told else None if None in found else Verdict(PROVED)

    def of_judge(self, edit: Edit, function: Function) -> Optional[Verdict]:
        """What it says of one function of an edit."""
        if edit.goal:
            return self.of_goal(function, self.copy.true[edit], edit.goal)
        named = edit.answer or edit.open
        return self.of_answer(function, named) if named else self.of_function(function)

    def errors_in(self, names: List[str]) -> List[str]:
        """Its errors in the proofs of these functions, but for the fault that was put there."""
        paths = [f"proofs/{it.replace('::', '/')}/" for it in names]
        proofs = (*paths, *(f"./{it}" for it in paths))
        errors = [it for it in self.lines if it.startswith(proofs) and ": error: " in it]
        return [it for it in errors if FAULT not in it]

    def of_answer(self, function: Function, answer: str) -> Verdict:
        """What it says of one answer of a function, at whose other goals no tactic was tried."""
        errors = [it for it in self.errors_in([function.name]) if f": error: `{answer}`: " in it]
        goals = [it for it in errors if not NAMES.search(it)]
        if goals:
            return Verdict(REFUSED, goals[0])
        return Verdict(TEXT, errors[0]) if errors else Verdict(FITS)

    def of_goal(self, function: Function, true: Function, goal: str) -> Verdict:
        """What it says of one goal of a function, which `search rules` has to prove of the true
        one."""
        left = [it for it in self.lines if is_open_goal(it, true) and f"(`{goal}`)" in it]
        left = [*self.errors_in([true.name]), *left]
        untrue = [it for it in left if f"`{goal}`" in it or ": error: `" not in it]
        if untrue:
            return Verdict(UNTOLD, f"of the true function: {untrue[0]}")
        return self.of_answer(function, goal)

    def of_function(self, function: Function) -> Optional[Verdict]:
        """What it says of one function with its closures; nothing where that only calls what is not
        proved."""
        names = f"({re.escape(function.name)}|{re.escape(function.closures)}\\S+)"
        said = [re.match(f"fn {self.crate}::{names}: (.*)", it) for it in self.lines]
        said = [it for it in said if it]
        failed = [it for it in said if not re.match("proved$|no holes$|depends on a hole", it[2])]
        if not failed:
            unsaid = Verdict(UNTOLD, "the check has no line for its function")
            return Verdict(PROVED) if said else unsaid
        errors = self.errors_in([it[1] for it in failed])
        goals = [it[0] for it in failed if "did not prove" in it[2]]
        goals += [it for it in self.lines if is_open_goal(it, function)]
        goals += [it for it in errors if not NAMES.search(it)]
        if goals or errors:
            return Verdict(REFUSED, goals[0]) if goals else Verdict(TEXT, errors[0])
        if any(self.waits(it[2]) for it in failed):
            return None
        # (with no fault but the one that was put there, and none that it calls)
        is_proved = all(it[2] == "not proved" or CALLS in it[2] for it in failed)
        return Verdict(PROVED) if is_proved else Verdict(UNTOLD, failed[0][0])

    def waits(self, said: str) -> bool:
        """Whether it says of a function that it calls one that is not proved, other than those that
        have a hole here: the check says it of these too."""
        called = re.findall(r"`([^`]+)`", said.partition(CALLS)[2].partition(", which ")[0])
        return any(it[len(self.crate) + 2 :] not in self.copy.holes for it in called)

    def of_crate(self) -> Verdict:
        """What it says of the crate as a whole."""
        if self.status != 1:
            return Verdict(UNTOLD, self.lines[-1]) if self.status else Verdict(PROVED)
        failed = re.compile(r"fn .*did not prove|(note: )?\S+: (error|it is not proved)")
        told = [it for it in self.lines if failed.match(it)]
        goals = [it for it in told if not NAMES.search(it)]
        return Verdict(REFUSED, goals[0]) if goals else Verdict(TEXT, (told or self.lines)[0])
