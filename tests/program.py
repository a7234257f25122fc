#!/usr/bin/env python3
"""program.py: whether the built program answers as it has to, where no case of tests/cases can show it.

A case is a script and its replies. Here are command lines, the status and the complaint of each run, lines at the
limits, scripts that are cut anywhere, streams that fail, races, and scripts that fill all that there is. It prints a
line for each answer that differs, and then 'N passed, M failed'. The status is 0 only if M is 0, and 2 where the
program is not built.
"""
import argparse
import contextlib
import os
import resource
import socket
import subprocess
import sys
import tempfile
from pathlib import Path
from typing import Iterable, Iterator, List, NamedTuple, Tuple

ROOT = Path(os.path.realpath(__file__)).parent.parent
# How many bytes the longest line has, without its end.
LONGEST = 262_144


class Answer(NamedTuple):
    """How a run ended, and what it wrote."""

    status: int
    output: bytes
    error: bytes = b""


# The name of a check, what the program answered, and whether that is right.
Check = Tuple[str, Answer, bool]


class Program:
    """The program that is tried."""

    def __init__(self, path: str):
        self.path = path

    def run(self, line: str, script: bytes = b"", timeout: int = 120, **streams) -> Answer:
        """What it answers to a command line, with one space between words, and a script or these streams."""
        words = line.split(" ") if line else []
        how = {"stdout": subprocess.PIPE, "stderr": subprocess.PIPE, **streams}
        if "stdin" not in how:
            how["input"] = script
        try:
            ended = subprocess.run([self.path, *words], check=False, timeout=timeout, **how)
        except subprocess.TimeoutExpired:
            return Answer(-1, b"", b"it was stopped after %d seconds" % timeout)
        return Answer(ended.returncode, ended.stdout or b"", ended.stderr)

    def check(self, name: str, line: str, script: bytes, wanted: Answer) -> Check:
        found = self.run(line, script)
        return name, found, found == wanted

    def check_script(self, script: bytes, wanted: Answer) -> Check:
        return self.check(f"{script[:60]!r}", "run", script, wanted)


def unreadable(number: int, output: bytes = b"") -> Answer:
    """The answer to a script whose line of this number cannot be read."""
    return Answer(2, output, b"scmgc: line %d cannot be read\n" % number)


# ---- Command lines and races ----


def race(**changed) -> str:
    """The command line of a small race with these numbers changed. None leaves a number out."""
    numbers = {"workers": 1, "steps": 5, "seed": 0, "budget": 1, **changed}
    return " ".join(["race", *(f"--{name} {it}" for name, it in numbers.items() if it is not None)])


# Calls for help, and what names no task.
OTHER_WORDS = ["walk", "", "run fast", "--help", "--version", "run --help", "race --help"]
OTHER_BENCHMARKS = ["bench", "bench walk 1 1", "bench lock 1", "bench lock 1 1 1", "bench layer 1 -1 1"]
OUT_OF_RANGE = [
    *(race(workers=it) for it in (33, 0, "one")),
    *(race(steps=it) for it in (4, 20_001, "")),
    *(race(seed=it) for it in (4_294_967_296, -1)),
    *(race(budget=it) for it in (0, 65_537)),
    race(steps=20_001, checkpoint=0),
    race(steps=100_000_001, checkpoint=1),
    race(checkpoint=250_001),
]
NUMBERS = ["workers", "steps", "seed", "budget"]
LEFT_OUT = [race(**{it: None}) for it in NUMBERS]
TWICE = [*(f"{race()} --{it} 1" for it in NUMBERS), f"{race(checkpoint=1)} --checkpoint 1"]
# Races that end well, and how many steps their workers make. Checkpoints come after each event, after parts that do not
# divide the steps, or later than the last event.
RACES = [
    (race(workers=4, steps=2_000, seed=7, budget=8), 8_000),
    (race(), 5),
    (race(workers=32), 160),
    (race(steps=20_000, budget=65_536), 20_000),
    *((race(workers=4, steps=400, seed=it, budget=by), 1_600) for it in range(3) for by in (1, 8, 65_536)),
    (race(workers=2, steps=9, seed=8, budget=8), 18),
    (race(workers=2, steps=9, seed=8, budget=8, checkpoint=6), 18),
    (race(checkpoint=0), 5),
    (race(checkpoint=1), 5),
    (race(workers=3, steps=50, seed=8, budget=8, checkpoint=1), 150),
    (race(workers=4, steps=401, seed=8, budget=8, checkpoint=100), 1_604),
    (race(workers=4, steps=400, seed=8, budget=8, checkpoint=250_000), 1_600),
    (race(workers=4, steps=25_000, seed=7, budget=8, checkpoint=30_000), 100_000),
]


def command_lines(program: Program) -> Iterator[Check]:
    """Those that are refused read no script, write a complaint or the help, and have status 2."""
    for line in [*OTHER_WORDS, *OTHER_BENCHMARKS, *OUT_OF_RANGE, *LEFT_OUT, *TWICE]:
        found = program.run(line, b"spawn 1000 16\n")
        yield line, found, found.status == 2 and not found.output and bool(found.error)
    yield program.check("the version", "--version", b"", Answer(2, b"", b"scmgc 0.2.0\n"))
    no_text = b"error: invalid UTF-8 was detected in one or more arguments\n"
    yield program.check("a word that is no text", "run \udcff", b"", Answer(2, b"", no_text))
    found = program.run("run" + 20 * f" {99_999 * 'x'}", preexec_fn=bound_memory)
    yield "words without memory", found, found == Answer(1, b"", b"scmgc: no memory\n")
    for line, said in [
        ("run --help", b"version 2"),
        ("run --help", b"P peek N N N"),
        ("run --help", b"P limit N"),
        ("run --help", b"P shutdown N HOW"),
        ("run --help", b"P unconnect N"),
        ("--help", b"scmgc bench"),
        (race(steps=20_001), b"more than 20000 steps need --checkpoint"),
    ]:
        found = program.run(line)
        yield f"{line} says {said!r}", found, said in found.error


def races(program: Program) -> Iterator[Check]:
    """Each ends well, and sooner than a thread that naps for half a minute."""
    for line, steps in RACES:
        found = program.run(line, timeout=25)
        yield line, found, found == Answer(0, b"steps %d\naudit ok\nleft 0\n" % steps)


# Scripts for a benchmark. The second has each event, and three runs do it once.
SHORT = b"spawn 1000 16\n1 open\n1 close 0\n"
EACH_EVENT = b"""spawn 1000 16
1 open
1 dup 0
1 dup2 0 2
1 limit 32
1 pair stream
1 send 3 hi 0
begin
slice 1
1 peek 4 9 4
1 recv 4 9 4
1 shutdown 3 read
1 shutdown 3 write
1 shutdown 4 both
1 close 0
1 socket stream
1 bind 0 hub
1 listen 0 1
1 socket stream
1 connect 7 hub
1 accept 0
1 fork
2 exit
slice 65536
pass
"""
# A log has room for 1,048,576 entries. The start of a seat takes one, so the first form fills a log.
CALLS = ["layer 1 1048575 3", "layer 64 500 3", "batches 1 1048560 3", "shared 4 2000 3", "engine 10 3", "lock 10 3"]
BENCHMARKS = [("script 1 4 3", SHORT), ("script 1 8 3", EACH_EVENT), *((it, b"") for it in CALLS)]
# The last call finds no room for its entry.
REFUSED = [("script 1 1 1", b"spawn 1000 16\n1 close 0\n"), ("layer 1 1048576 1", b""), ("batches 1 1048576 1", b"")]


def benchmarks(program: Program) -> Iterator[Check]:
    """Each run prints a number. A refused event, or a count that does not come out even, fails."""
    for form, script in BENCHMARKS:
        found = program.run(f"bench {form}", script)
        printed = found.output.split()
        yield form, found, not found.status and len(printed) == 3 and all(it.isdigit() for it in printed)
    yield program.check("a report", "bench script 1 1 1", b"check\n", Answer(1, b"", b"scmgc: a line is no event\n"))
    for form, script in REFUSED:
        yield program.check(form, f"bench {form}", script, Answer(1, b"", b"scmgc: an event was refused\n"))
    # A layer has 64 seats at most.
    yield program.check("seats", "bench layer 65 1 1", b"", Answer(1, b"", b"scmgc: no layer was opened\n"))
    fault = b"scmgc: runs and events do not come out even\n"
    yield program.check("uneven", "bench script 1 2 1", b"spawn 1 2\n1 open\n1 open\n1 open\n", Answer(1, b"", fault))


# ---- Lines ----

BAD_LINES = [
    b"spawn 01 4",
    b"spawn 4294967296 4",
    b"spawn 1 4 root",
    b"spawn 1",
    b"1 pair dgram",
    b"1 send 0",
    b"1 send 0 a%2",
    b"1 send 0 a%2G",
    b"1 send 0 *65538",
    b"1 send 0 a 0*0",
    b"1 send 0 a 0*1024 0",
    b"1 close 0 0",
    b"pass\r\r",
    b" " * (LONGEST + 1),
    b" " * LONGEST + b" \r",
    b" " * LONGEST + b"\r ",
    b"1 peek 0 1 1",
]
# Lines that can be read, and their replies. A comment may have bytes that are no text.
GOOD_LINES = [
    (b"spawn 4294967295 0", b"pid 1\n"),
    (b"1 send 0 a 0*1024", b"ESRCH\n"),
    (b"#\xff", b""),
    (b" " * LONGEST, b""),
]
# Scripts, and how they end.
SCRIPTS = [
    (b"\tpass \r\n", Answer(0, b"pass 1 reclaimed 0\n")),
    (b" " * LONGEST + b"\r\n", Answer(0, b"")),
    (b"#\xff\n1 close 0\n#\xff", Answer(0, b"ESRCH\n")),
    (b"pass\nversion 2\n", unreadable(2, b"pass 1 reclaimed 0\n")),
]


def lines(program: Program) -> Iterator[Check]:
    """Each line is answered alike with its line feed and without."""
    wanted = [*((line, unreadable(1)) for line in BAD_LINES), *((line, Answer(0, it)) for line, it in GOOD_LINES)]
    for line, answer in wanted:
        yield program.check_script(line, answer)
        yield program.check_script(line + b"\n", answer)
    for script, answer in SCRIPTS:
        yield program.check_script(script, answer)


# The smallest cycle, a socket in its own queue, which a pass takes: lines with their replies.
CYCLE = [
    (b"spawn 1000 16", b"pid 1\n"),
    (b"1 pair seqpacket", b"fds 0 1\n"),
    (b"1 send 1 hi 0", b"sent 2\n"),
    (b"1 close 0", b"ok\n"),
    (b"totals", b"user 1000 inflight 1\n"),
    (b"check", b"check ok live 2 garbage 1\n"),
    (b"pass", b"pass 1 reclaimed 1\n"),
    (b"totals", b"user 1000 inflight 0\n"),
    (b"1 send 1 x", b"EPIPE\n"),
    (b"check", b"check ok live 1 garbage 0\n"),
]
# The beginnings of these lines that are lines themselves, with their replies.
BEGINNINGS = {
    b"": b"",
    b"spawn 1000 1": b"pid 1\n",
    b"1 send 1 h": b"sent 1\n",
    b"1 send 1 hi": b"sent 2\n",
    b"1 send 1 hi ": b"sent 2\n",
}


def replies_to(script: bytes) -> bytes:
    """The replies to the whole lines among these first bytes of it."""
    return b"".join(reply for _, reply in CYCLE[: script.count(b"\n")])


def cut_scripts(program: Program) -> Iterator[Check]:
    """That script is cut after each of its bytes."""
    before, replies = b"", b""
    for number, (line, reply) in enumerate(CYCLE, 1):
        for cut in range(len(line)):
            last = BEGINNINGS.get(line[:cut])
            wanted = unreadable(number, replies) if last is None else Answer(0, replies + last)
            yield program.check(f"line {number} cut to {cut} bytes", "run", before + line[:cut], wanted)
        replies += reply
        yield program.check(f"line {number} without its end", "run", before + line, Answer(0, replies))
        before += line + b"\n"
    yield program.check("no line cut", "run", before, Answer(0, replies))


# ---- Streams that fail ----

# That script as a whole, and its replies.
SCRIPT = b"".join(line + b"\n" for line, _ in CYCLE)
REPLIES = b"".join(reply for _, reply in CYCLE)
# How many bytes come in each read, after how many reads one fails, and what is written then.
READS = [
    *((1, reads, replies_to(SCRIPT[:reads])) for reads in range(len(SCRIPT) + 1)),
    (31, 0, b""),
    (31, 1, b"pid 1\nfds 0 1\n"),
    (31, 2, b"pid 1\nfds 0 1\nsent 2\nok\nuser 1000 inflight 1\n"),
    (45, 1, b"pid 1\nfds 0 1\nsent 2\n"),
    (97, 1, REPLIES),
]
# Some lines before one that cannot be read, and their replies.
BAD_SCRIPT = b"spawn 1000 16\n1 open\n1 open\nwalk\n1 open\n"
# 100 messages of 10,000 bytes that are sent and received, and what is written of them: 1 MB.
MUCH = b"spawn 1000 16\n1 pair seqpacket\n" + 100 * b"1 send 1 *10000\n1 recv 0 10000 0\n"
MUCH_TEXT = b"pid 1\nfds 0 1\n" + 100 * (b"sent 10000\ngot " + 10_000 * b"x" + b"\n")
CANNOT_READ = b"scmgc: reading failed\n"
CANNOT_WRITE = b"scmgc: writing failed\n"


def streams(program: Program) -> Iterator[Check]:
    folder = os.open(ROOT, os.O_RDONLY)
    yield reads_from(program, "a folder", folder, Answer(1, b"", CANNOT_READ))
    os.close(folder)
    with open("/dev/full", "wb") as full:
        found = program.run("run", b"spawn 1000 16\n", stdout=full)
    yield "a write that fails", found, found == Answer(1, b"", CANNOT_WRITE)
    for at_once, reads, written in READS:
        yield fails_to_read(program, at_once, reads, Answer(1, written, CANNOT_READ))
    for taken in range(len(REPLIES)):
        yield writes_at_most(program, taken, SCRIPT, Answer(1, REPLIES[:taken], CANNOT_WRITE))
    yield writes_at_most(program, len(REPLIES), SCRIPT, Answer(0, REPLIES))
    # The gathered replies are written before the bad line is reported. If that fails, the failure is reported.
    yield writes_at_most(program, 0, BAD_SCRIPT, Answer(1, b"", CANNOT_WRITE))
    yield writes_at_most(program, 100, BAD_SCRIPT, unreadable(4, b"pid 1\nfd 0\nfd 1\n"))
    yield writes_at_most(program, 0, MUCH, Answer(1, b"", CANNOT_WRITE))
    yield reads_a_message_at_once(program)
    yield comes_in_thousands_of_reads(program)
    yield writes_much_at_once(program)
    yield refuses_a_long_line_at_once(program)


def reads_from(program: Program, name: str, stdin, wanted: Answer) -> Check:
    found = program.run("run", stdin=stdin)
    return name, found, found == wanted


def fails_to_read(program: Program, at_once: int, reads: int, wanted: Answer) -> Check:
    """So many bytes of the script come in each of so many reads. The next read fails, and one after that would end.

    A read takes nothing from behind a message with a descriptor. The other end is closed before it was read, so a read
    behind all messages gets ECONNRESET once.
    """
    ours, theirs = socket.socketpair()
    with theirs:
        with ours, open(os.devnull, "rb") as file:
            theirs.send(b"unread")
            for begin in range(0, at_once * reads, at_once):
                socket.send_fds(ours, [SCRIPT[begin : begin + at_once]], [file.fileno()])
        return reads_from(program, f"{reads} reads of {at_once} bytes, and one that fails", theirs, wanted)


def writes_at_most(program: Program, taken: int, script: bytes, wanted: Answer) -> Check:
    """The output takes so many bytes, and then fails."""

    def limit():
        resource.setrlimit(resource.RLIMIT_FSIZE, (taken, taken))

    with tempfile.TemporaryFile() as output:
        # (the signal of that limit stays ignored, as Python has it)
        found = program.run("run", script, stdout=output, preexec_fn=limit, restore_signals=False)
        output.seek(0)
        found = found._replace(output=output.read())
    return f"{taken} bytes written of {script[:30]!r}", found, found == wanted


def reads_a_message_at_once(program: Program) -> Check:
    """The script comes in one message. A read that asks for less loses what is left of it."""
    ours, theirs = socket.socketpair(socket.AF_UNIX, socket.SOCK_SEQPACKET)
    with theirs:
        with ours:
            ours.send(SCRIPT)
        return reads_from(program, "one message", theirs, Answer(0, REPLIES))


def comes_in_thousands_of_reads(program: Program) -> Check:
    """A script comes in thousands of reads, one byte each: a pipe in this mode keeps its writes apart."""
    given, giving = os.pipe2(os.O_DIRECT)
    with tempfile.TemporaryFile() as output:
        with subprocess.Popen([program.path, "run"], stdin=given, stdout=output, stderr=subprocess.PIPE) as run:
            os.close(given)
            # (a program that ends too soon has closed the other end)
            with contextlib.suppress(BrokenPipeError):
                for byte in MUCH:
                    os.write(giving, bytes([byte]))
            os.close(giving)
            error = run.stderr.read()
        output.seek(0)
        found = Answer(run.returncode, output.read(), error)
    return "reads of one byte", found, found == Answer(0, MUCH_TEXT)


def writes_much_at_once(program: Program) -> Check:
    """The replies to lines that are read at once are written in 17 writes at most, each a message of this socket."""
    ours, theirs = socket.socketpair(socket.AF_UNIX, socket.SOCK_SEQPACKET)
    with ours, tempfile.TemporaryFile() as script:
        script.write(MUCH)
        script.seek(0)
        with subprocess.Popen([program.path, "run"], stdin=script, stdout=theirs) as run:
            theirs.close()
            parts = list(iter(lambda: ours.recv(2 * len(MUCH_TEXT)), b""))
    found = Answer(run.returncode, b"".join(parts))
    return f"{len(parts)} writes", found, found == Answer(0, MUCH_TEXT) and len(parts) <= 17


def refuses_a_long_line_at_once(program: Program) -> Check:
    """A line that is too long ends the run before more of it comes."""
    pipes = {"stdin": subprocess.PIPE, "stdout": subprocess.PIPE, "stderr": subprocess.PIPE}
    with subprocess.Popen([program.path, "run"], bufsize=0, **pipes) as run:
        # (a program that ends too soon has closed the other end)
        with contextlib.suppress(BrokenPipeError):
            run.stdin.write(b"x" * (LONGEST + 1))
        found = Answer(run.wait(timeout=120), run.stdout.read(), run.stderr.read())
    return "a long line that goes on", found, found == unreadable(1)


# ---- Scripts that fill all that there is ----


def opens(pids: range, files: int) -> Tuple[str, str]:
    """Lines by which these processes start and open so many plain files each, and their replies."""
    lines = "".join(f"spawn 1000 1024\n{files * f'{pid} open{chr(10)}'}" for pid in pids)
    numbers = "".join(f"fd {fd}\n" for fd in range(files))
    return lines, "".join(f"pid {pid}\n{numbers}" for pid in pids)


def files_run_out(program: Program) -> Iterator[Check]:
    """64 processes open 1,024 plain files each, as many as may be live. Another one of this limit can open none."""
    lines, replies = opens(range(1, 65), 1_024)
    lines += "64 open\nspawn 1000 1024\n65 open\ncheck\n"
    replies += "EMFILE\npid 65\nENFILE\ncheck ok live 65536 garbage 0\n"
    yield program.check("files_run_out", "run", lines.encode(), Answer(0, replies.encode()))


# 64 queues full of messages with 253 descriptors each, and one with 48 of them and 144 more descriptors: 1,048,576
# descriptors in flight. A child has each pair. The last queue is full too, of messages without descriptors, and a
# process without privilege sends.
FULL_QUEUES = (
    "spawn 1000 2 priv\n"
    + 64 * ("1 pair seqpacket\n" + 64 * "1 send 0 m 0*253\n" + "1 fork\n1 close 0\n1 close 1\n")
    + "1 pair seqpacket\n"
    + 48 * "1 send 0 m 0*253\n"
    + "1 send 0 m 0*144\n"
    + 14 * "1 send 0 m\n"
    + "totals\n1 send 0 m 0\n1 send 0 m\n1 send 0 m 0\n1 send 0 m\n1 recv 1 1 0\ntotals\n"
    + "1 send 0 m 0*253\n1 send 0 m 0\nspawn 1000 2\n66 pair stream\n66 send 0 m 0\n"
)
QUEUES = """sent 1
user 1000 inflight 1048576
ENOBUFS
sent 1
ENOBUFS
EAGAIN
got m ctrunc
user 1000 inflight 1048323
sent 1
ENOBUFS
pid 66
fds 0 1
ETOOMANYREFS
"""

# 128 embryos wait at a listener, each with 64 messages; of 64 embryos each message has 253 descriptors. All go by one
# close.
CLIENT = "1 socket seqpacket\n1 connect 2 hub\n"
FULL_LISTENER = (
    "spawn 1000 3 priv\n1 socket seqpacket\n1 bind 0 hub\n1 listen 0 128\n1 open\n"
    + 64 * (CLIENT + 64 * "1 send 2 m 1*253\n" + "1 close 2\n")
    + 64 * (CLIENT + 64 * "1 send 2 m\n" + "1 close 2\n")
    + CLIENT
    + "totals\n1 close 0\ntotals\ncheck\n"
)
LISTENER = """ok
fd 2
EAGAIN
user 1000 inflight 1036288
ok
user 1000 inflight 0
check ok live 2 garbage 0
"""

# A chain of 65,531 sockets, each in the queue of the next and of no other; a listener with one embryo, its client, and
# a client that waits for room; and a plain file: as many files as may be live. One close frees the chain. No bound is
# proved for the stack.
FULL_MACHINE = (
    "spawn 1000 4 priv\nspawn 1000 0\nspawn 1000 4\n3 socket stream\n3 bind 0 hub\n3 listen 0 1\n"
    + "3 socket stream\n3 connect 1 hub\n3 socket stream\n1 pair seqpacket\n1 close 1\n"
    + 32_765
    * (
        "1 pair seqpacket\n1 send 2 a 0\n1 close 0\n1 close 2\n"
        + "1 pair seqpacket\n1 send 2 a 1\n1 close 1\n1 close 2\n"
    )
    + "totals\n1 pair seqpacket\n1 open\n1 open\n1 socket stream\n2 open\n2 socket stream\n2 pair stream\n"
    + "3 connect 2 hub\n3 accept 0\n3 connect 2 hub\ncheck\n1 close 0\ncheck\ntotals\n"
)
MACHINE = """user 1000 inflight 65530
ENFILE
fd 1
ENFILE
ENFILE
EMFILE
EMFILE
EMFILE
EAGAIN
fd 3
ENFILE
check ok live 65536 garbage 0
ok
check ok live 5 garbage 0
user 1000 inflight 0
"""

# A chain of 60,000 stream sockets behind number 0, two in each queue, which one close frees with it.
LONG_CHAIN = (
    "spawn 0 16 priv\n1 pair stream\n"
    + 30_000 * "1 pair stream\n1 send 1 x 2 3\n1 dup2 3 1\n1 close 2\n1 close 3\n"
    + "1 close 1\ntotals\ncheck\n1 close 0\ntotals\ncheck\n"
)
CHAIN = """ok
user 0 inflight 60000
check ok live 60001 garbage 0
ok
user 0 inflight 0
check ok live 0 garbage 0
"""

# As many processes as may be.
ALL_PROCESSES = 1_024 * "spawn 1000 0\n" + "spawn 1000 0\nspawn 1000 1025\n1 fork\n1 exit\n2 fork\n"
PROCESSES = """pid 1024
EAGAIN
ERANGE
EAGAIN
ok
pid 1025
"""

# As many files as may be live, one of them in flight. A pass looks at each, and three times at most: it continues after
# a slice of as many units as there are files, and ends with the third such slice.
FULL_PASS = (
    opens(range(1, 64), 1_024)[0]
    + f"spawn 1000 1024\n64 pair stream\n{1_022 * f'64 open{chr(10)}'}64 send 0 m 0\n64 open\ncheck\nbegin\n"
    + 3 * "slice 65536\n"
    + "slice 1\n"
)
PASS = """sent 1
EMFILE
check ok live 65536 garbage 0
started 1
working
working
pass 1 reclaimed 0
EIDLE
"""

# A million passes over as many files as may be live, none of them in flight. They take a second; with a begin that
# looks at each file, minutes: then the run is stopped.
CONSTANT_BEGINS = opens(range(1, 65), 1_024)[0] + 1_000_000 * "pass\n"
BEGINS = "pass 1000000 reclaimed 0\n"

LONG_SCRIPTS = [
    ("full queues", FULL_QUEUES, QUEUES),
    ("a full listener", FULL_LISTENER, LISTENER),
    ("a full machine", FULL_MACHINE, MACHINE),
    ("a long chain of streams", LONG_CHAIN, CHAIN),
    ("all processes", ALL_PROCESSES, PROCESSES),
    ("a pass over all files", FULL_PASS, PASS),
    ("begins over all files", CONSTANT_BEGINS, BEGINS),
]


def long_scripts(program: Program) -> Iterator[Check]:
    """Each is run to its end, and its last replies are these."""
    for name, script, replies in LONG_SCRIPTS:
        found = program.run("run", script.encode())
        last = Answer(found.status, found.output[-len(replies) :], found.error)
        yield name, last, last == Answer(0, replies.encode())


# ---- Files that come and go, and units of a pass ----

HEADER = "   inode    refs     fly kind      state     msgs wait     peer name\n"
PLAIN_ROW = "{:8}       1       0 plain     -            0    0        0 -\n"


def bound_memory():
    """Lets the program have 1 MB of data at most."""
    resource.setrlimit(resource.RLIMIT_DATA, (1 << 20, 1 << 20))


def in_little_memory(program: Program, name: str, lines: str, replies: str, files: Iterable[int]) -> Check:
    """The plain files with these inode numbers are left, and replies are these: in so little memory that none is left
    for a row of 16 bytes for each file that was."""
    script = f"spawn 1000 16\n{lines}table\n".encode()
    found = program.run("run", script, preexec_fn=bound_memory)
    wanted = f"pid 1\n{replies}{HEADER}{''.join(map(PLAIN_ROW.format, files))}"
    return name, found, found == Answer(0, wanted.encode())


def many_lives(program: Program) -> Iterator[Check]:
    """A file is opened and closed 100,000 times, and then another one: it has the next inode number."""
    lines, replies = 100_000 * "1 open\n1 close 0\n", 100_000 * "fd 0\nok\n"
    yield in_little_memory(program, "many_lives", lines + "1 open\n", replies + "fd 0\n", [100_001])


def a_few_at_once(program: Program) -> Iterator[Check]:
    """Four of five files come and go by turns, 100,000 of them."""
    lines = 5 * "1 open\n" + 25_000 * "".join(f"1 close {fd}\n1 open\n" for fd in range(4))
    replies = "".join(f"fd {fd}\n" for fd in range(5)) + 25_000 * "".join(f"ok\nfd {fd}\n" for fd in range(4))
    yield in_little_memory(program, "a_few_at_once", lines, replies, [5, *range(100_002, 100_006)])


# Behind plain files are a socket that is garbage, in its own queue, and its peer. A pass begins.
PLAIN_FILES = 20_000
GARBAGE_BEHIND = opens(range(1, 21), 1_000)[0] + "20 pair seqpacket\n20 send 1001 x 1000\n20 close 1000\nbegin\n"


def units_are_counted(program: Program) -> Iterator[Check]:
    """A pass visits, scans and sweeps each file before it ends, and looks at one file in each unit.

    So a begin that marks files, and a unit that looks at more than one, leave too few slices that are answered
    'working'; a pass that looks at a file more than three times has too many.
    """
    for budget in (1, 977):
        least, most = (3 * files // budget for files in (PLAIN_FILES, PLAIN_FILES + 2))
        found = program.run("run", (GARBAGE_BEHIND + (most + 1) * f"slice {budget}\n").encode())
        _, _, slices = found.output.partition(b"started 1\n")
        working = slices.count(b"working\n")
        ends = slices.startswith(working * b"working\n" + b"pass 1 reclaimed 1\n")
        is_right = (found.status, found.error, ends) == (0, b"", True) and least <= working <= most
        last = found._replace(output=b"%d slices of %d" % (working, budget))
        yield "units_are_counted", last, is_right


PARTS = [
    *(command_lines, races, benchmarks, lines, cut_scripts, streams, long_scripts),
    *(files_run_out, many_lives, a_few_at_once, units_are_counted),
]


def main() -> int:
    form = argparse.ArgumentParser(description=__doc__, formatter_class=argparse.RawDescriptionHelpFormatter)
    form.add_argument("--program", default=f"{ROOT}/crates/scmgc/out/scmgc", help="another build: out/unproved/scmgc")
    path = form.parse_args().program
    if not (os.path.isfile(path) and os.access(path, os.X_OK)):
        print(f"{path} is not built: run make build", file=sys.stderr)
        return 2
    checks: List[Check] = [check for part in PARTS for check in part(Program(path))]
    faults = [(name, found) for name, found, is_right in checks if not is_right]
    for name, found in faults:
        print(f"{name}: status {found.status}, {found.output[-300:]!r}, {found.error[-300:]!r}")
    print(f"{len(checks) - len(faults)} passed, {len(faults)} failed")
    return int(bool(faults))


if __name__ == "__main__":
    sys.exit(main())
