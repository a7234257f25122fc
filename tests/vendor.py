#!/usr/bin/env python3
"""vendor.py: whether tools/vendor copies what a program needs, updates it, and spares all else.

It vendors into folders that it makes and removes, and proves nothing. It prints a line for each
check that fails, and then 'N passed, M failed'. The status is 0 only if M is 0.
"""
import os
import re
import subprocess
import sys
import tempfile
from pathlib import Path
from typing import Dict, Iterator, Set, Tuple

ROOT = Path(os.path.realpath(__file__)).parent.parent
OWN = "mine: jaywardrobe\n"
# The name of a check, and whether it holds.
Check = Tuple[str, bool]


def vendor(top: Path) -> subprocess.CompletedProcess:
    words = [sys.executable, str(ROOT / "tools" / "vendor"), str(top)]
    return subprocess.run(words, capture_output=True, text=True, check=False)


def contents(top: Path) -> Dict[str, bytes]:
    """All files below a folder, by their paths."""
    files = (path for path in top.rglob("*") if path.is_file())
    return {str(path.relative_to(top)): path.read_bytes() for path in files}


def sources(top: Path, crates: Set[str]) -> Dict[str, Dict[str, bytes]]:
    """The sources, definitions and proofs of these crates."""
    folders = [f"crates/{crate}/{part}" for crate in crates for part in ("src", "specs", "proofs")]
    return {it: contents(top / it) for it in folders}


def crates_of(path: Path) -> Set[str]:
    """The crates that a crates.txt names."""
    return set(re.findall(r"^(\w+)[^#\n:]*:", path.read_text(), re.M))


def cited(top: Path) -> Set[str]:
    """The crates that the files of these crates name, in code and in clauses."""
    used = re.compile(r"\bRattle\.(\w+)\.|\buse (\w+)::")
    sources = (it for it in contents(top).items() if it[0].endswith((".rt", ".antt")))
    named = (used.findall(text.decode()) for _, text in sources)
    return {name for pairs in named for pair in pairs for name in pair if name}


def copies(top: Path) -> Iterator[Check]:
    """Checks of a new copy."""
    ended = vendor(top)
    yield "a new folder is filled", ended.returncode == 0 and "jaywardrobe: " in ended.stdout
    crates = crates_of(top / "crates.txt")
    yield "a copy is what was copied", sources(top, crates) == sources(ROOT, crates)
    left_out = crates_of(ROOT / "crates.txt") - crates
    yield "no crate is needed that is not copied", not cited(top / "crates") & left_out
    yield "handles are allowed", (top / "HANDLES").read_text() == (ROOT / "HANDLES").read_text()


def updates(top: Path) -> Iterator[Check]:
    """Checks of a copy that is made again."""
    (top / "crates.txt").write_text(OWN + (top / "crates.txt").read_text())
    (top / "crates" / "mine" / "src").mkdir(parents=True)
    (top / "crates" / "mine" / "src" / "lib.rt").write_text("//! Mine.\n")
    before = contents(top)
    yield "a second run changes nothing", vendor(top).returncode == 0 and contents(top) == before
    (top / "crates" / "af_base" / "src" / "lib.rt").write_text("//! Changed.\n")
    (top / "crates" / "af_base" / "src" / "gone.rt").write_text("//! Gone.\n")
    (top / "crates" / "af_listen" / "README.md").unlink()
    said = vendor(top).stdout
    yield "an update restores all", contents(top) == before
    yield "an update says what it did", "af_base: 0 files new, 1 changed, 1 removed\n" in said
    lines = (top / "crates.txt").read_text()
    (top / "crates.txt").write_text(lines.replace("af_base:", "af_old:\naf_base:", 1))
    (top / "crates" / "af_old" / "src").mkdir(parents=True)
    yield "a crate that is gone is removed", vendor(top).returncode == 0 and contents(top) == before
    yield "its folder too", not (top / "crates" / "af_old").exists()


def refusals(top: Path) -> Iterator[Check]:
    """Checks of what is refused."""
    (top / "crates" / "af_mark" / "src").mkdir(parents=True)
    (top / "crates" / "af_mark" / "src" / "lib.rt").write_text("//! Mine.\n")
    before = contents(top)
    yield "a taken folder is refused", vendor(top).returncode == 2 and contents(top) == before
    (top / "crates.txt").write_text("af_ledger: slab\n")
    before = contents(top)
    yield "a taken line is refused", vendor(top).returncode == 2 and contents(top) == before
    yield "this repository is refused", vendor(ROOT).returncode == 2


def main() -> int:
    failed = passed = 0
    with tempfile.TemporaryDirectory() as folder:
        new, taken = Path(folder) / "new", Path(folder) / "taken"
        for checks in (copies(new), updates(new), refusals(taken)):
            for name, holds in checks:
                passed, failed = passed + holds, failed + (not holds)
                if not holds:
                    print(f"tools/vendor: not so: {name}")
    print(f"{passed} passed, {failed} failed")
    return 1 if failed else 0


if __name__ == "__main__":
    sys.exit(main())
