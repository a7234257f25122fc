#!/usr/bin/env python3
"""looks.py: whether events find files and processes at once, or search for them.

A file and a process are found by a hint; a walk and a pass continue behind the last file. No contract says so, since a
search has the same answers. But among thousands it takes dozens of instructions more. So this counts, by the steps of
ptrace(2), the instructions of lines beside 50 files and beside 15,000. Nothing is timed.

It prints a line for each count that is too high, and then 'N passed, M failed'. The status is 0 only if M is 0, and 2
where the program is not built. Where it may not trace a program, it counts nothing, and says so.
"""
import argparse
import ctypes
import errno
import fcntl
import os
import subprocess
import sys
import termios
from pathlib import Path
from typing import Iterator, List, NamedTuple, Tuple

ROOT = Path(os.path.realpath(__file__)).parent.parent
# Requests of ptrace(2).
ATTACH, STEP = 16, 9
# The errors of ptrace(2) where a program may not be traced.
NO_TRACE = errno.EPERM, errno.EACCES, errno.ENOSYS
# How many instructions more a line may take. In the larger order, a binary search has 8 steps more, of 5 or more each.
MOST = 20
# How many lines are written before their replies are read: so few fit into a pipe.
AT_ONCE = 1_000
# The name of a count, its result, and whether that is right.
Check = Tuple[str, str, bool]

LIBC = ctypes.CDLL(None, use_errno=True)
LIBC.ptrace.argtypes = [ctypes.c_long, ctypes.c_long, ctypes.c_void_p, ctypes.c_void_p]


class Traced:
    """A run of the program, whose instructions can be counted."""

    def __init__(self, run: subprocess.Popen):
        self.run = run

    def play(self, lines: List[str]):
        """Plays lines, each of which has a reply of one line."""
        for begin in range(0, len(lines), AT_ONCE):
            part = lines[begin : begin + AT_ONCE]
            self.write(part)
            replies = 0
            while replies < len(part):
                text = self.run.stdout.read(1 << 16)
                if not text:
                    raise EOFError("the program ended")
                replies += text.count(b"\n")

    def write(self, lines: List[str]):
        self.run.stdin.write("".join(f"{line}\n" for line in lines).encode())

    def count(self, lines: List[str]) -> float:
        """Plays the last lines. Returns how many instructions the program takes for each."""
        self.trace(ATTACH)
        self.write(lines)
        # (replies are written before the next read, which finds that no line follows)
        self.run.stdin.close()
        steps = 0
        while not self.has_answered():
            for _ in range(32):
                self.trace(STEP)
            steps += 32
        return steps / len(lines)

    def trace(self, request: int):
        """Makes a request of ptrace(2), and waits until the program stops."""
        if LIBC.ptrace(request, self.run.pid, None, None):
            raise OSError(ctypes.get_errno(), "ptrace")
        os.waitpid(self.run.pid, 0)

    def has_answered(self) -> bool:
        return any(fcntl.ioctl(self.run.stdout, termios.FIONREAD, bytes(4)))


def count(program: str, before: List[str], lines: List[str]) -> float:
    """How many instructions the program takes for each of these lines, after those before them."""
    pipes = {"stdin": subprocess.PIPE, "stdout": subprocess.PIPE, "bufsize": 0}
    with subprocess.Popen([program, "run"], **pipes) as run:
        try:
            traced = Traced(run)
            traced.play(before)
            return traced.count(lines)
        finally:
            run.kill()


def most_closed(pid: int, files: int) -> List[str]:
    """Lines that close three of four files. Once their order is packed, no number tells a place in it."""
    return [f"{pid} close {fd}" for fd in range(files) if fd % 4]


# Each new file packs some rows of the order.
COME_AND_GO = ["1 open", "1 close 1"]
PACK = COME_AND_GO * 2_000
# Process 1 has 50 plain files. Behind them are a socket that is garbage, in its own queue, and its peer.
ONE = [
    *("spawn 1000 1024", *["1 open"] * 200, "1 pair stream", "1 send 201 x 200", "1 close 200"),
    *most_closed(1, 200),
]
SMALL = ONE + PACK
# 60 further processes have 250 files each.
OTHERS = [["spawn 1000 1024", *[f"{pid} open"] * 1_000, *most_closed(pid, 1_000)] for pid in range(2, 62)]
LARGE = [*ONE, *(line for other in OTHERS for line in other), *PACK]


class Workload(NamedTuple):
    """Lines that are counted, in a small world and a large one, each after some further lines."""

    name: str
    lines: List[str]
    small: List[str] = []
    large: List[str] = []


PAIR, BEGIN, UNIT = ["1 pair stream"], ["begin"], 20 * ["slice 1"]
WORKLOADS = [
    Workload("a file that comes and goes", 10 * COME_AND_GO),
    Workload("a descriptor that is replaced", 20 * ["1 dup2 4 8"]),
    Workload("a file in flight", 10 * ["1 send 1 x 4", "1 recv 2 9 4", "1 close 3"], PAIR, PAIR),
    Workload("a unit that visits", UNIT, BEGIN, BEGIN),
    # (a slice before has visited and scanned each file)
    Workload("a unit that sweeps", UNIT, [*BEGIN, "slice 104"], [*BEGIN, "slice 30104"]),
]


def looks(program: str) -> Iterator[Check]:
    """Each line takes as many instructions in a large world as in a small one."""
    for name, lines, small, large in WORKLOADS:
        few, many = count(program, [*SMALL, *small], lines), count(program, [*LARGE, *large], lines)
        yield name, f"{few:.0f} and {many:.0f}", many <= few + MOST


def walks(program: str) -> Iterator[Check]:
    """A report walks over 50 files with gaps between their numbers, of three digits each, as over 50 without."""
    before = ["spawn 1000 1024", "1 open", *COME_AND_GO * 100]
    few = count(program, [*before, *["1 open"] * 49], ["table"]) / 50
    many = count(program, [*before, *["1 open"] * 199, *most_closed(1, 200), *COME_AND_GO * 20], ["table"]) / 50
    yield "a line of a report", f"{few:.0f} and {many:.0f}", many <= few + MOST


def processes(program: str) -> Iterator[Check]:
    """A process that does one event after another is found sooner than two by turns that share a hint."""
    before = [*["spawn 1000 16"] * 267, "11 open", "267 open"]
    one = count(program, before, 20 * ["11 dup2 0 1"])
    two = count(program, before, 10 * ["11 dup2 0 1", "267 dup2 0 1"])
    yield "a process", f"{one:.0f} and {two:.0f}", one + MOST <= two


def main() -> int:
    form = argparse.ArgumentParser(description=__doc__, formatter_class=argparse.RawDescriptionHelpFormatter)
    form.add_argument("--program", default=f"{ROOT}/crates/scmgc/out/scmgc", help="another build with optimization")
    path = form.parse_args().program
    if not (os.path.isfile(path) and os.access(path, os.X_OK)):
        print(f"{path} is not built: run make build", file=sys.stderr)
        return 2
    try:
        checks: List[Check] = [check for part in (looks, walks, processes) for check in part(path)]
    except OSError as error:
        if error.errno not in NO_TRACE:
            raise
        print("looks: no program may be traced, so no instruction was counted")
        checks = []
    faults = [(name, found) for name, found, is_right in checks if not is_right]
    for name, found in faults:
        print(f"{name}: {found} instructions")
    print(f"{len(checks) - len(faults)} passed, {len(faults)} failed")
    return int(bool(faults))


if __name__ == "__main__":
    sys.exit(main())
