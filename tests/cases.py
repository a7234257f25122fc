#!/usr/bin/env python3
"""cases.py: whether the built program answers each script of tests/cases as it is stored there,
byte by byte.

tests/cases/README.md says how cases stand there. Each has a run of its own, from the fresh machine.
Beside the program that LLVM builds, `rt ci` leaves what Rattle's own compiler builds: where it
stands, and is no older, it plays all cases too.

It prints the first line of each case that is answered otherwise, and then 'N passed, M failed'. The
status is 0 only if M is 0, and 2 where the program is not built. With --write it stores what the
program answers instead, and names the cases that it changes.
"""
import argparse
import ast
import os
import re
import subprocess
import sys
from itertools import zip_longest
from pathlib import Path
from typing import Iterator, List, NamedTuple

ROOT = Path(os.path.realpath(__file__)).parent.parent
NAME, INDENT = b"== ", b"    "
# Where an answer begins beside its line, as in `scmgc play`, and how wide both may be together.
ANSWER_COLUMN, WIDTH = 34, 100
# A line of a script, in quotes or without, and the answer beside it.
ROW = re.compile(rb"""('(?:[^'\\]|\\.)*'|"(?:[^"\\]|\\.)*"|[^\s'"]\S*(?: \S+)*)(?:  +(\S.*))?""")
# Text that needs no quotes: a line of a script, and one of an answer.
BARE_LINE = re.compile(rb"""(?!== |['"])[!-~]+(?: [!-~]+)*\n""")
BARE_ANSWER = re.compile(rb"""(?!['"])[ -~]*[!-~]\n""")
WRITTEN = re.compile(rb"[^\n]*\n|[^\n]+")
COMPLAINT = b"scmgc: "
UNREADABLE = 2


class Line(NamedTuple):
    """A line of a script with its end, what the program writes of it, and where it stands."""

    number: int
    text: bytes
    answers: List[bytes]


class Case(NamedTuple):
    """A script with its answers, and where it stands."""

    path: Path
    number: int
    name: str
    lines: List[Line]

    @property
    def script(self) -> bytes:
        return b"".join(line.text for line in self.lines)

    @property
    def answers(self) -> bytes:
        return b"".join(answer for line in self.lines for answer in line.answers)

    @property
    def task(self) -> str:
        return "play" if self.name.startswith("played: ") else "run"


def spell(text: bytes, bare: "re.Pattern[bytes]") -> bytes:
    """A line as a file has it: in quotes, with its end, where it cannot stand without them."""
    return text[:-1] if bare.fullmatch(text) else repr(text)[1:].encode()


def unspell(text: bytes) -> bytes:
    """The line that a file has so."""
    return ast.literal_eval(f"b{text.decode()}") if text.startswith((b"'", b'"')) else text + b"\n"


def read_row(row: bytes, number: int, lines: List[Line]) -> None:
    """Adds a line of a script, with the answer beside it, or an answer to the last one."""
    if row.startswith(INDENT) and lines:
        lines[-1].answers.append(unspell(row[len(INDENT) :]))
        return
    found = ROW.fullmatch(row)
    if not found:
        raise ValueError("neither a line of a script nor an answer")
    lines.append(Line(number, unspell(found[1]), [unspell(found[2])] if found[2] else []))


def read(path: Path) -> List[Case]:
    """The cases of a file."""
    cases: List[Case] = []
    for number, row in enumerate(path.read_bytes().split(b"\n"), 1):
        try:
            if row.startswith(NAME):
                cases.append(Case(path, number, row[len(NAME) :].decode(), []))
            elif row and not cases:
                raise ValueError("no line names a case before it")
            elif row:
                read_row(row, number, cases[-1].lines)
        except (SyntaxError, ValueError) as error:
            raise SystemExit(f"{path}:{number}: cannot be read: {error}") from error
    return cases


def read_all() -> List[Case]:
    return [case for path in files() for case in read(path)]


def files() -> List[Path]:
    return sorted((ROOT / "tests" / "cases").glob("*.cases"))


def lay_out(case: Case) -> bytes:
    """A case as a file has it."""
    rows = [NAME + case.name.encode()]
    for line in case.lines:
        text = spell(line.text, BARE_LINE)
        answers = [spell(answer, BARE_ANSWER) for answer in line.answers]
        row = text.ljust(ANSWER_COLUMN - 2) + b"  " + b"".join(answers)
        is_beside = len(answers) == 1 and not answers[0].startswith(b" ") and len(row) <= WIDTH
        rows += [row] if is_beside else [text, *(INDENT + answer for answer in answers)]
    return b"\n".join(rows) + b"\n"


def run(program: str, task: str, script: bytes) -> bytes:
    """What the program writes of a script, and why it stops."""
    ended = subprocess.run([program, task], input=script, capture_output=True, timeout=120)
    end = b""
    if ended.returncode == UNREADABLE and ended.stderr.startswith(COMPLAINT):
        end = b"-- " + ended.stderr[len(COMPLAINT) :]
    elif ended.returncode or ended.stderr:
        end = b"-- status %d: %s" % (ended.returncode, ended.stderr)
    return ended.stdout + end


def fault(program: str, case: Case) -> str:
    """The first line that is answered otherwise, or nothing."""
    found = run(program, case.task, case.script)
    if found == case.answers:
        return ""
    wanted = [(line, answer) for line in case.lines for answer in line.answers]
    wanted.append((case.lines[-1] if case.lines else Line(case.number, b"", []), b""))
    pairs = zip_longest(wanted, WRITTEN.findall(found), fillvalue=b"")
    (line, answer), got = next(pair for pair in pairs if pair[0][1] != pair[1])
    place = f"{case.path.relative_to(ROOT)}:{line.number}: {spell(line.text, BARE_LINE).decode()}"
    return f"{place}\n  wanted {answer!r}\n  got    {got!r}, by {program}"


def tried(program: str) -> Iterator[bool]:
    """Whether each case is answered as it is stored."""
    for case in read_all():
        found = fault(program, case)
        if found:
            print(found)
        yield not found


def learn(program: str, case: Case) -> Case:
    """The case with the program's answers. A line's are what comes more with it than without."""
    script, before, lines = b"", b"", []
    for line in case.lines:
        script += line.text
        found = run(program, case.task, script)
        if not found.startswith(before):
            raise SystemExit(f"{case.path}:{line.number}: it changes answers to lines before it")
        lines.append(line._replace(answers=WRITTEN.findall(found[len(before) :])))
        before = found
    return case._replace(lines=lines)


def write(program: str) -> int:
    """Stores the program's answers, and says which cases had others."""
    for path in files():
        cases = read(path)
        others = {case.number: learn(program, case) for case in cases if fault(program, case)}
        path.write_bytes(b"\n".join(lay_out(others.get(it.number, it)) for it in cases))
        for case in others.values():
            print(f"{path.relative_to(ROOT)}: {case.name}")
    return 0


def builds(path: str) -> Iterator[str]:
    """The program, and what Rattle's own compiler builds."""
    yield path
    other = f"{path}.by-rattle"
    if os.access(other, os.X_OK) and os.path.getmtime(other) >= os.path.getmtime(path):
        yield other


def main() -> int:
    layout = argparse.RawDescriptionHelpFormatter
    form = argparse.ArgumentParser(description=__doc__, formatter_class=layout)
    built = f"{ROOT}/crates/scmgc/out/scmgc"
    form.add_argument("--program", default=built, help="another build: out/unproved/scmgc")
    form.add_argument("--write", action="store_true", help="store the program's answers")
    options = form.parse_args()
    path = options.program
    if not (os.path.isfile(path) and os.access(path, os.X_OK)):
        print(f"{path} is not built: run make build", file=sys.stderr)
        return 2
    if options.write:
        return write(path)
    results = [is_right for build in builds(path) for is_right in tried(build)]
    print(f"{sum(results)} passed, {len(results) - sum(results)} failed")
    return int(not results or not all(results))


if __name__ == "__main__":
    sys.exit(main())
