"""Tries the wrong bodies of a crate, most of them in one check.

All go into one copy of the crate, which is checked once. One whose function only calls a refused
one is tried again in a later copy, and at last alone. An edit of a contract, a constant or a type
goes alone from the start; where it names no function, the whole crate is checked.

A check begins with the modules that the crate's library carries: over one of `rt all check` no
lemma is proved once more, while one of `rt ci` has statements alone. A program or a static library
is checked as any other library: else its check links all that it uses, for some 20 seconds.
"""
import argparse
import os
import re
import shutil
import subprocess
import tempfile
from typing import Dict, List, Tuple

from .checks import MISFIT, REFUSED, UNTOLD, Check, Verdict
from .copies import Copy
from .edits import Edit, batches
from .kit import rtlib


def unpack(rlib: str, kept: str) -> None:
    """Lays out the checked modules of a library as a check keeps those of its crate, below the name
    of its rattle. They stand in an archive, and a line of its list has a module's name, place and
    length."""
    build = re.search(r"^rattle-build (\S+)$", rtlib.text_of(f"{rlib}/format") or "", re.M)
    rows = rtlib.text_of(f"{rlib}/toolchain/checked.json") or ""
    listed = re.findall(r'^\["([^"/]{1,200})",(\d+),(\d+)\]', rows, re.M)
    if build and listed:
        room = f"{kept}/{build[1].replace('/', '_')}"
        os.makedirs(room)
        with open(f"{rlib}/toolchain/checked.a", "rb") as archive:
            for name, place, length in listed:
                archive.seek(int(place))
                with open(f"{room}/{name}.oantt", "wb") as out:
                    out.write(archive.read(int(length)))


class Trial:
    """The trial of a crate's wrong bodies, one check after the other, each over what those before
    it proved. The first begins with what the crate's library carries, or with --kept with what rt
    check kept."""

    def __init__(self, crate: "rtlib.Crate", edits: List[Edit], words: argparse.Namespace):
        self.crate, self.edits, self.words = crate, edits, words
        faults = ((it, f"line {it.line}: {it.fault}") for it in edits if it.fault)
        self.verdicts: Dict[Edit, Verdict] = {it: Verdict(MISFIT, why) for it, why in faults}
        self.checks, self.seconds = 0, 0.0

    def run(self) -> "Trial":
        with tempfile.TemporaryDirectory(prefix="wrong-bodies-") as kept:
            if self.words.kept and self.crate.has_kept():
                work = f"{self.crate.folder}/out/incremental"
                shutil.copytree(work, kept, dirs_exist_ok=True)
            elif self.crate.makes_rlib():
                unpack(self.crate.rlib, kept)
            # (a library that stands shows that its crate is proved; programs and static libraries
            # leave none)
            is_shown = self.words.built or self.crate.makes_rlib()
            if not is_shown and self.check([], kept).status:
                rtlib.stop(f"{self.crate.name} is not proved as it stands")
            left = [it for it in self.edits if not it.fault]
            for turn in (batches, batches, lambda edits: [[it] for it in edits]):
                left = self.take_turn(turn(left), kept)
            why = "its function only calls what is not proved"
            self.verdicts.update((it, Verdict(UNTOLD, why)) for it in left)
        return self

    def take_turn(self, waiting: List[List[Edit]], kept: str) -> List[Edit]:
        """Checks each batch, and returns the edits of which nothing was said."""
        left = []
        # (a batch that cannot be read comes back in halves)
        for batch in waiting:
            said = self.check(batch, kept)
            if len(batch) > 1 and not said.could_read():
                half = len(batch) // 2
                waiting += [batch[:half], batch[half:]]
                continue
            for edit in batch:
                verdict = said.verdict(edit)
                if verdict:
                    self.verdicts[edit] = verdict
                else:
                    left.append(edit)
        return left

    def check(self, batch: List[Edit], kept: str) -> Check:
        """Checks a copy of the crate with these edits: the functions that they change or name, or
        all where there are none."""
        words = [rtlib.RATTLE, "check", *self.crate.words(["--jobs", "1"], keeps=False)]
        words = [it for it in words if it not in ("--crate-type", "staticlib")]
        # (with nothing to begin with, to keep work takes longer than a later check gains: most
        # crates have one)
        words += ["--incremental", kept] if self.words.kept or os.listdir(kept) else []
        with tempfile.TemporaryDirectory(prefix="wrong-bodies-") as room:
            copy = Copy(self.crate, batch, room)
            if copy.names:
                words += ["--allow-holes"]
                words += [word for name in copy.names for word in ("--only", name)]
            said, seconds = self.called([*rtlib.guarded(), *words], copy)
        self.checks += 1
        self.seconds += seconds
        if self.words.log:
            path = f"{self.words.log}/{self.crate.name}.{self.checks}"
            with open(path, "w", encoding="utf-8") as it:
                names = [edit.name for edit in batch]
                it.write("\n".join([*names, f"{seconds:.0f} processor seconds", *said.lines]))
        return said

    def called(self, words: List[str], copy: Copy) -> Tuple[Check, float]:
        """Runs a command over a copy, and counts its processor time."""
        with tempfile.TemporaryFile("w+", errors="replace") as out:
            how = {"stdin": subprocess.DEVNULL, "stdout": out, "stderr": subprocess.STDOUT}
            child = subprocess.Popen(words, cwd=copy.room, **how)
            _, status, usage = os.wait4(child.pid, 0)
            child.returncode = os.waitstatus_to_exitcode(status)
            out.seek(0)
            # (a long error says in a second line what a module has not)
            lines = out.read().rstrip("\n").replace("\n  has no `", " has no `").split("\n")
        said = Check(self.crate.name, copy, child.returncode, lines)
        return said, usage.ru_utime + usage.ru_stime

    def report(self) -> Tuple[int, int]:
        """Prints what came of each wrong body, and returns how many passed and how many failed."""
        for edit in self.edits:
            kind, why = self.verdicts[edit]
            print(f"{self.crate.name}/{edit.name}: {kind}{': ' if why else ''}{why[:200]}")
        passed = sum(it.kind == REFUSED for it in self.verdicts.values())
        failed = len(self.edits) - passed
        spent = f"{self.checks} checks, {self.seconds:.0f} processor seconds"
        print(f"{self.crate.name}: {passed} passed, {failed} failed ({spent})", flush=True)
        return passed, failed
