"""Lays out copies of a crate with wrong bodies in them, so that one check tries many.

A function that has several wrong bodies stands there as often, next to itself and under further
names, each time with one of them. A method of a trait cannot, so its second wrong body goes into a
copy of its own. A function that no edit changes has a hole for a proof there, so that it is not
proved once more, and is taken by its contract.

Where goals stay open, a check ends by running the prover once more, to print what could be written
into each function's answers. Nobody reads that here, and it takes a fifth of the time. It is not
done for a function whose answers have a fault, so each that is judged gets one. The goals are tried
all the same, and each that stays open is named.
"""
import glob
import os
import re
import shutil
from collections import defaultdict
from typing import Dict, List, Set, Tuple

from .answers import SEARCH, Tactics, attributes_of, only_answer, stored_answers, tactics_of
from .edits import Change, Edit
from .functions import Function, functions, proofs_of
from .kit import rtlib

# The fault that is put into answers: a name that nothing has.
FAULT = "name_that_nothing_has"
# How the name of a true function ends that stands beside wrong ones.
TRUE = "_as_it_stands"


def write(path: str, text: str, mode: str = "w") -> None:
    """Writes a file, in a folder that need not be there."""
    os.makedirs(os.path.dirname(path), exist_ok=True)
    with open(path, mode, encoding="utf-8") as out:
        out.write(text)


class Copy:
    """A copy of a crate with these edits, in a room of its own."""

    def __init__(self, crate: "rtlib.Crate", batch: List[Edit], room: str):
        self.crate, self.room = crate, room
        # The functions of the copy that judge each edit.
        self.judges: Dict[Edit, List[Function]] = {}
        # The true functions beside those whose edits name a goal.
        self.true: Dict[Edit, Function] = {}
        for part in rtlib.PARTS:
            if os.path.isdir(f"{crate.folder}/{part}"):
                shutil.copytree(f"{crate.folder}/{part}", f"{room}/{part}")
        self.lay_out(batch)
        self.leave_named_goals()
        judging = [*self.judges.values(), self.true.values()]
        # The names of the functions to be proved, and of those that have a hole for a proof.
        self.names = sorted({it.name for found in judging for it in found})
        self.holes: Set[str] = set()
        for name in self.names:
            self.spoil(name)
        if self.names:
            self.leave_out_others(batch[0].known)

    def lay_out(self, batch: List[Edit]) -> None:
        """Puts the edits in, and the true functions beside those whose edits name a goal."""
        changes: Dict[str, List[Tuple[int, int, str]]] = defaultdict(list)
        taken: Dict[Function, int] = defaultdict(int)
        names: Dict[Edit, List[str]] = {}
        for edit in batch:
            count = max((taken[it] for it in edit.changed), default=0)
            for it in edit.changed:
                taken[it] += 1
            mark = f"_again_{count}" if count else ""
            names[edit] = [it.name + mark for it in sorted(edit.changed)]
            if mark:
                (function,) = edit.changed
                changes[function.file].append(self.beside(function, edit.pairs, mark))
            else:
                for file, at, old, new in edit.pairs:
                    changes[file].append((at, len(old), new))
        true = {edit: next(iter(edit.changed)) for edit in batch if edit.goal}
        for function in set(true.values()):
            changes[function.file].append(self.beside(function, [], TRUE))
        for file, made in changes.items():
            self.change(file, made)
        stand = {it.name: it for it in functions(self.room)}
        self.judges = {edit: [stand[it] for it in found] for edit, found in names.items()}
        self.true = {edit: stand[it.name + TRUE] for edit, it in true.items()}

    def beside(self, function: Function, pairs: List[Change], mark: str) -> Tuple[int, int, str]:
        """The change that puts a function behind itself once more, as an edit's pairs leave it,
        with a mark on its name. It gets its proofs, and its closures theirs."""
        rows = rtlib.text_of(f"{self.crate.folder}/{function.file}").split("\n")
        start = len("\n".join([*rows[: function.top], ""]))
        text = "\n".join(rows[function.top : function.end + 1])
        behind = start + len(text)
        for _, at, old, new in sorted(pairs, key=lambda it: -it[1]):
            text = text[: at - start] + new + text[at - start + len(old) :]
        text = re.sub(r"\bfn (\w+)", lambda it: it[0] + mark, text, count=1)
        for name in (function.name, function.closures.rstrip(":")):
            self.copy_proofs(name, mark)
        return behind, 0, f"\n\n{text}"

    def copy_proofs(self, name: str, mark: str) -> None:
        folder, dots = proofs_of(name, self.room), name.replace("::", ".")
        if os.path.isdir(folder):
            shutil.copytree(folder, folder + mark)
            for it in glob.glob(f"{folder}{mark}/**/*.antt", recursive=True):
                text = rtlib.text_of(it)
                write(it, text.replace(f".proofs.{dots}.", f".proofs.{dots}{mark}."))

    def change(self, file: str, changes: List[Tuple[int, int, str]]) -> None:
        """Writes a file with changes, each a place, how much goes there and what comes: from the
        file's end on, so that none moves the place of another."""
        text = rtlib.text_of(f"{self.crate.folder}/{file}")
        for at, length, new in sorted(changes, reverse=True):
            text = text[:at] + new + text[at + length :]
        write(f"{self.room}/{file}", text)

    def leave_named_goals(self) -> None:
        """Leaves each edit that names an answer or a goal that one alone, and the true functions
        those goals."""
        for edit in [it for it in self.judges if it.answer or it.open or it.goal]:
            (function,) = self.judges[edit]
            if edit.answer:
                stored = stored_answers(function, self.room)
                self.leave_goals(function, only_answer(stored, edit.answer))
            elif edit.open:
                tactics = tactics_of(self.crate.name, attributes_of(function, self.room))
                self.leave_goals(function, self.tried(function, {edit.open}, tactics))
            else:
                self.leave_goals(function, self.tried(function, {edit.goal}))
        for function in set(self.true.values()):
            goals = {edit.goal for edit, it in self.true.items() if it == function}
            self.leave_goals(function, self.tried(function, goals))

    def tried(self, function: Function, goals: Set[str], tactics: Tactics = SEARCH) -> str:
        """Answers that have tactics prove these goals of a function."""
        return tactics.answers(self.crate.name, function, goals)

    def leave_goals(self, function: Function, answers: str) -> None:
        """Has no tactic be tried at a function's goals but those of these answers, which take the
        place of its own. No line of the source moves."""
        rows = rtlib.text_of(f"{self.room}/{function.file}").split("\n")
        for at in range(function.top, function.head):
            rows[at] = "" if rows[at].lstrip().startswith("#[tactic(") else rows[at]
        rows[function.head] = f"#[tactic(none)] {rows[function.head].lstrip()}"
        write(f"{self.room}/{function.file}", "\n".join(rows))
        if answers:
            write(f"{function.proofs(self.room)}/Answers.antt", answers)

    def spoil(self, name: str) -> None:
        """Puts the fault into the answers of a function; a proof by hand has none."""
        proofs = proofs_of(name, self.room)
        if not os.path.isfile(f"{proofs}/Proof.antt"):
            write(f"{proofs}/Answers.antt", f"\npub fault : {FAULT}\nfault = {FAULT}\n", "a")

    def leave_out_others(self, known: List[Function]) -> None:
        """Has the crate's other functions be taken by their contracts."""
        # (what a trait declares has no proof)
        self.holes = {it.name for it in known if it.name not in self.names and not it.of_trait}
        if "main" in self.holes:
            self.holes = self.holes - {"main"} | {self.rename_main()}
        for it in sorted(self.holes):
            self.leave_out(it)
        self.empty_holes()

    def rename_main(self) -> str:
        """Gives the `main` of a program another name, which it returns: the crate is then a
        library."""
        root, name = f"{self.room}/src/main.rt", "main_of_the_program"
        write(root, re.sub(r"\bfn main\b", f"fn {name}", rtlib.text_of(root), count=1))
        shutil.rmtree(f"{self.room}/proofs/main", ignore_errors=True)
        return name

    def leave_out(self, name: str) -> None:
        """Has a function that stands as it was be taken by its contract: the crate was proved as it
        stands."""
        folder = proofs_of(name, self.room)
        proof = f"{name.rpartition('::')[2]}_spec"
        module = f"Rattle.{self.crate.name}.proofs.{name.replace('::', '.')}"
        text = f"use {module}.Statement.{{statement}}\n\n"
        text += f"pub {proof} : {{M : Type 1}} → statement M\n{proof} = ?\n"
        shutil.rmtree(folder, ignore_errors=True)
        write(f"{folder}/Proof.antt", text)

    def empty_holes(self) -> None:
        """Has the bodies of functions with holes be a loop without an end, which fits each type and
        costs the prover nothing: nobody reads them. No line moves. A body stays that holds another
        function, or that a constant may need."""
        stand = functions(self.room)
        for file in {it.file for it in stand}:
            rows = rtlib.text_of(f"{self.room}/{file}").split("\n")
            inside = [it for it in stand if it.file == file]
            for it in inside:
                others = any(it.body < other.head < it.end for other in inside)
                is_hole = it.name in self.holes and it.body < it.end
                if is_hole and not others and "const fn" not in rows[it.head]:
                    rows[it.body + 1 : it.end] = ["loop {}", *[""] * (it.end - it.body - 2)]
            write(f"{self.room}/{file}", "\n".join(rows))
