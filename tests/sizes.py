#!/usr/bin/env python3
"""sizes.py: whether the project has grown beyond its budget. `tests/sizes.py --all` prints what is counted.

Each limit of `BUDGET` is a little above what the project has. Who needs more raises it in the commit that needs it, and
says there why; who has made something smaller lowers it. Counted are the files that a checkout has, but for the data
of `APART`. A line is printed for each count above its limit, with the places, and then 'N passed, M failed'. The
status is 0 only if M is 0. Nothing has to be built.
"""
import argparse
import ast
import os
import re
import sys
from typing import Callable, Dict, Iterator, List, NamedTuple

ROOT = os.path.dirname(os.path.dirname(os.path.realpath(__file__)))
# Built files, git's own, and drafts.
SKIPPED = {".git", "out", "target", "__pycache__", "wip"}
# Data whose lines and files are no code: wrong bodies, and scripts with their answers.
APART = re.compile(r"crates/\w+/wrong-bodies|tests/cases/|tests/comparison/(seen|scripts)/")
# The columns of a line by the kind of its file. .editorconfig has the same.
WIDTHS = {"rt": 100, "antt": 100, "rs": 100, "c": 100, "h": 100, "py": 120, "sh": 120}
# How many lines a function and a file of code may have.
FUNCTION = 40
FILE = 800
# One event, to count for all: it has been there from the first, and its name is no other word.
EVENT = "dup2"
# Of a limit below this all places are shown; of others they would say little.
SHOWN = 100


class Source(NamedTuple):
    """A file of the project."""

    path: str
    # Its suffix, or 'py' or 'sh' where the first line says so.
    kind: str
    text: str


class Limit(NamedTuple):
    """What is counted, and how much there may be."""

    name: str
    most: int
    # A place for each thing that counts.
    places: Callable[[List[Source]], List[str]]


def kind_of(path: str, text: str) -> str:
    first = text.partition("\n")[0]
    if first.startswith("#!"):
        return "py" if "python" in first else "sh"
    return os.path.splitext(path)[1].lstrip(".")


def sources() -> Iterator[Source]:
    for folder, folders, files in os.walk(ROOT):
        folders[:] = sorted(set(folders) - SKIPPED)
        for file in sorted(files):
            path = os.path.join(folder, file)
            with open(path, encoding="utf-8", errors="replace") as it:
                text = it.read()
            source = Source(os.path.relpath(path, ROOT), kind_of(path, text), text)
            if source.kind == "md" or not APART.match(source.path):
                yield source


# The places that count.


def all_files(found: List[Source]) -> List[str]:
    return [it.path for it in found]


def words(found: List[Source]) -> List[str]:
    """Returns a place for each word of each page."""
    return [it.path for it in found if it.kind == "md" for _ in it.text.split()]


def naming_an_event(found: List[Source]) -> List[str]:
    name = re.compile(rf"\b{EVENT}\b")
    return [it.path for it in found if name.search(it.text)]


def wide_lines(*kinds: str) -> Callable[[List[Source]], List[str]]:
    def places(found: List[Source]) -> List[str]:
        return [
            f"{it.path}:{at}"
            for it in found
            if it.kind in kinds
            for at, line in enumerate(it.text.split("\n"), 1)
            if len(line) > WIDTHS[it.kind]
        ]

    return places


def long_files(found: List[Source]) -> List[str]:
    return [it.path for it in found if it.kind in WIDTHS and it.text.count("\n") > FILE]


def long_functions(found: List[Source]) -> List[str]:
    python, c, rust = functions_of_python, functions_of_c, functions_of_rust
    readers = {"py": python, "c": c, "h": c, "rt": rust, "rs": rust}
    return [
        f"{it.path}:{first} has {lines} lines"
        for it in found
        if it.kind in readers
        for first, lines in readers[it.kind](it.text).items()
        if lines > FUNCTION
    ]


# How many lines each function has, by the number of its first.


def functions_of_python(text: str) -> Dict[int, int]:
    kinds = ast.FunctionDef, ast.AsyncFunctionDef
    return {it.lineno: it.end_lineno - it.lineno + 1 for it in ast.walk(ast.parse(text)) if isinstance(it, kinds)}


def functions_of_c(text: str) -> Dict[int, int]:
    """A function begins with a line that has its parameters, and ends with a brace at the margin."""
    lines = text.split("\n")
    heads = [at for at, line in enumerate(lines) if re.match(r"[a-z][^;={}]*\)\s*\{$", line)]
    return {at + 1: lines.index("}", at) - at + 1 for at in heads}


def functions_of_rust(text: str) -> Dict[int, int]:
    """The body of a function counts, without its contract: from the line at its indent that ends with a brace."""
    lines, found = text.split("\n"), {}
    for at, line in enumerate(lines):
        head = re.match(r"( *)(?:[a-z()]+ )*fn \w", line)
        if head:
            own = re.compile(rf"{head[1]}(?:\S.*)?[{{}};]$")
            first = next((it for it in range(at, len(lines)) if own.match(lines[it])), at)
            if lines[first].endswith("{"):
                found[first + 1] = lines.index(f"{head[1]}}}", first) - first + 1
    return found


BUDGET = (
    Limit("files", 1550, all_files),
    Limit("words of prose", 36_000, words),
    Limit(f"files that name {EVENT}", 72, naming_an_event),
    Limit("lines of .rt over their width", 26, wide_lines("rt")),
    Limit("lines of .antt over their width", 7400, wide_lines("antt")),
    Limit("lines of C and Rust over their width", 38, wide_lines("c", "h", "rs")),
    Limit("lines of Python and shell over their width", 13, wide_lines("py", "sh")),
    Limit(f"functions over {FUNCTION} lines", 0, long_functions),
    Limit(f"files of code over {FILE} lines", 0, long_files),
)


def main() -> int:
    form = argparse.ArgumentParser(description=__doc__, formatter_class=argparse.RawDescriptionHelpFormatter)
    form.add_argument("--all", action="store_true", help="print each count beside its limit, and its places")
    options = form.parse_args()
    found, failed = list(sources()), 0
    for limit in BUDGET:
        places = limit.places(found)
        is_over = len(places) > limit.most
        failed += is_over
        if is_over or options.all:
            print(f"{limit.name}: {len(places):,}, and at most {limit.most:,} are allowed")
            print("".join(f"    {it}\n" for it in places if limit.most < SHOWN), end="")
    print(f"{len(BUDGET) - failed} passed, {failed} failed")
    return 1 if failed else 0


if __name__ == "__main__":
    sys.exit(main())
