#!/usr/bin/env python3
"""Plays random scripts by processes and sockets of this kernel and by the plain engine.

    tests/comparison/kernel_walks.py [--seeds N] [--first SEED] [--events N] [--mix MIX]

As root, on Linux. A walk is a script of N events in a network namespace and with users of its own.
In turn it is of the mixes `lively`, `cramped`, `curious`, `shut` and `mail` of tools/walks, each
with datagram sockets, and of two of its own, whose messages all have descriptors, mostly of
sockets: `cycles`, and `rings` with hardly any but datagram sockets. Compared are, event by event:

- the reply
- which file each open descriptor of the process refers to
- which plain files were freed
- how many sockets are live
- what poll(2) tells of each socket

Where an event leaves garbage a pass is made at once, and Linux's collector is waited for.

What docs/PROFILE.md lists as different on purpose is left out of a walk, or allowed, and counted by
its row. Where Linux keeps garbage (docs/COMPARISON.md, "Cycles"), the walk ends, and its seed is
shown. These walks fail if they are more than two and one of twenty times that there was garbage.

Of a walk that fails the smallest script found that fails is shown. The last line is 'N passed, M
failed', in walks; the status is 0 only if M is 0. Where walks cannot be played the reason is shown,
and the last line is '0 passed, 0 failed'.
"""
import argparse
import os
import pickle
import sys
import time
import traceback
from collections import Counter
from concurrent.futures import ProcessPoolExecutor
from importlib.machinery import SourceFileLoader
from importlib.util import module_from_spec, spec_from_loader
from itertools import count
from multiprocessing import get_context
from random import Random
from typing import Dict, Iterator, List, NamedTuple

sys.dont_write_bytecode = True
HERE = os.path.dirname(os.path.realpath(__file__))
ROOT = os.path.dirname(os.path.dirname(HERE))
sys.path[:0] = [HERE, f"{ROOT}/tools"]
from kernel_differences import missing_rows  # noqa: E402
from kernel_processes import enter_namespace, why_not  # noqa: E402
from kernel_walk import Outcome, Played, Script, played  # noqa: E402
from plain_engine import Engine, Event  # noqa: E402

LOADER = SourceFileLoader("walks", f"{ROOT}/tools/walks")
WALKS = module_from_spec(spec_from_loader("walks", LOADER))
LOADER.exec_module(WALKS)
MIXES = "lively", "cramped", "curious", "cycles", "shut", "mail", "rings"
# The kinds of events of the mixes with sockets in messages; and what each mix but `mail` has more.
CYCLING = "spawn fork exit open dup dup2 socket recv peek" + " pair close close send send" * 4
CYCLING += " send send shutdown" + " meet" * 4
RINGING = CYCLING + " bind connect unconnect" * 2 + " post" * 24
MORE = " unconnect connect" + " post" * 8
TYPES = "stream", "seqpacket", "dgram"
# The users of a walk, far from those of the machine, and how many numbers each run and walk has.
FIRST_USER, OF_RUN, OF_WALK, USERS = 10**9, 10**6, 10**4, 16
# How many faults are shown, and how wide. Linux may keep garbage in two walks, and in one more for
# each twenty times that there was garbage.
MOST_SHOWN, WIDTH, MISSED_OF = 3, 300, 20


class Task(NamedTuple):
    """A walk that is to be played."""

    seed: int
    events: int
    mix: str
    first_user: int


def mix_of(name: str) -> NamedTuple:
    """The mix of tools/walks by which events are drawn."""
    if name == "mail":
        return WALKS.MIXES["mail"]
    if name == "rings":
        return WALKS.MIXES["mail"]._replace(kinds=RINGING)
    mix = WALKS.MIXES["shut"]._replace(kinds=CYCLING) if name == "cycles" else WALKS.MIXES[name]
    return mix._replace(kinds=mix.kinds + MORE, types=TYPES)


def drawn(task: Task) -> Script:
    """Events as tools/walks draws them."""
    is_cycling, mix = task.mix in ("cycles", "rings"), mix_of(task.mix)

    def script(engine: Engine) -> Iterator[Event]:
        source = WALKS.Source(mix, f"kernel {task.mix} {task.seed}")
        for _ in range(task.events):
            event = source.event()
            if is_cycling and event.verb == "send":
                event = with_sockets(engine, event, source.random)
            source.note(event, (yield event))

    return script


def with_sockets(engine: Engine, event: Event, random: Random) -> Event:
    """A send from one of the process's sockets, with one or two of its descriptors."""
    files = {it.ino: it for it in engine.files}
    fds = [fd for (pid, fd) in engine.numbers if pid == event.pid]
    sockets = [fd for fd in fds if files[engine.numbers[event.pid, fd]].peer]
    if not sockets:
        return event
    attached = random.choices(sockets * 3 + fds, k=random.choice((1, 1, 2)))
    return event._replace(values=(random.choice(sockets), b"a", *attached))


def replay(events: List[Event]) -> Script:
    """These events, whatever is answered."""

    def script(_: Engine) -> Iterator[Event]:
        for event in events:
            yield event

    return script


def isolated(script: Script, first_user: int) -> Outcome:
    """Plays a script in a process and a namespace of its own."""
    reads, writes = os.pipe()
    child = os.fork()
    if not child:
        try:
            os.close(reads)
            with open(writes, "wb") as it:
                enter_namespace()
                pickle.dump(played(script, first_user), it)
        except BaseException:
            traceback.print_exc()
            os._exit(1)
        os._exit(0)
    os.close(writes)
    with open(reads, "rb") as it:
        data = it.read()
    if os.waitpid(child, 0)[1]:
        raise ChildProcessError("the process of a walk failed, as its own message says")
    return pickle.loads(data)


def shrunk(outcome: Outcome, first_user: int) -> Outcome:
    """Finds a smaller script that fails, by leaving out ever fewer events at once."""
    least, width, users = outcome, len(outcome.played), count(first_user, USERS)
    while width:
        at = 0
        while at < len(least.played):
            tried = isolated(replay(without(least.played, at, width)), next(users))
            if tried.fault:
                least = tried
            else:
                at += width
        width //= 2
    return least


def without(walk: List[Played], at: int, width: int) -> List[Event]:
    """The events but for some, and for those of the processes that these make. The other processes
    get the numbers that they have then."""
    gone = pids_of(walk[at : at + width])
    numbers = {pid: pid - sum(it < pid for it in gone) for pid in pids_of(walk)}
    left = [event for event, _ in walk[:at] + walk[at + width :] if event.pid not in gone]
    return [it if it.pid is None else it._replace(pid=numbers.get(it.pid, 0)) for it in left]


def pids_of(walk: List[Played]) -> List[int]:
    """The processes that these events make."""
    return [int(reply[4:]) for _, reply in walk if reply.startswith("pid ")]


def play_task(task: Task) -> Outcome:
    """Plays the walk of a seed; where it fails, returns the smallest script found that does."""
    outcome = isolated(drawn(task), task.first_user)
    return shrunk(outcome, task.first_user + USERS) if outcome.fault else outcome


def show(seed: int, outcome: Outcome):
    lines = [f"seed {seed}: {outcome.fault}", "by this script:"]
    lines += [f"  {event.line()}" for event, _ in outcome.played]
    print("\n".join(it[:WIDTH] for it in lines), flush=True)


def report(outcomes: Dict[int, Outcome], seconds: float) -> int:
    """Prints what came of all walks, and returns how many failed."""
    found = outcomes.values()
    rows, garbage = (sum(it, Counter()) for it in zip(*((it.rows, it.garbage) for it in found)))
    for row, times in rows.most_common():
        print(f"{times:6} {row}")
    failed = [seed for seed, it in outcomes.items() if it.fault]
    for seed in failed[:MOST_SHOWN]:
        show(seed, outcomes[seed])
    missed = [seed for seed, it in outcomes.items() if it.is_missed]
    if missed:
        print(f"Linux keeps garbage in the walks of seeds {' '.join(map(str, missed))}")
    if len(missed) > 2 + garbage["events"] // MISSED_OF:
        failed += missed
        print("and that too often")
    replies = [reply for it in found for _, reply in it.played]
    refused = sum(map(WALKS.is_refusal, replies))
    print(f"{len(replies):,} events on Linux {os.uname().release}, {refused:,} of them refused")
    print(f"{garbage['events']:,} left garbage, {garbage['sockets']:,} sockets; {seconds:.0f} s")
    print(f"{len(outcomes) - len(failed)} passed, {len(failed)} failed")
    return len(failed)


def why_nothing() -> str:
    """Why no walk is played that could be compared, or nothing."""
    with open(f"{ROOT}/docs/PROFILE.md", encoding="utf-8") as page:
        lacking = missing_rows(page.read())
    return f"docs/PROFILE.md has no row {lacking[0]!r}" if lacking else ""


def main() -> int:
    raw = argparse.RawDescriptionHelpFormatter
    form = argparse.ArgumentParser(description=__doc__, formatter_class=raw)
    form.add_argument("--seeds", type=int, default=28, metavar="N", help="how many walks (28)")
    form.add_argument("--first", type=int, default=1, metavar="SEED", help="the first seed (1)")
    form.add_argument("--events", type=int, default=400, metavar="N", help="events of a walk (400)")
    form.add_argument("--mix", choices=MIXES, help="walks of this mix alone")
    given = form.parse_args()
    if given.seeds < 1:
        form.error("there is no walk without a seed")
    fault, reason = why_nothing(), why_not()
    if fault or reason:
        print(f"{fault}\n0 passed, 1 failed" if fault else f"{reason}\n0 passed, 0 failed")
        return 1 if fault else 0
    begin, seeds = time.monotonic(), range(given.first, given.first + given.seeds)
    users = count(FIRST_USER + os.getpid() % 1000 * OF_RUN, OF_WALK)
    mixes = [given.mix or MIXES[seed % len(MIXES)] for seed in seeds]
    tasks = [Task(seed, given.events, mix, next(users)) for seed, mix in zip(seeds, mixes)]
    with ProcessPoolExecutor(mp_context=get_context("fork")) as pool:
        outcomes = dict(zip(seeds, pool.map(play_task, tasks)))
    return 1 if report(outcomes, time.monotonic() - begin) else 0


if __name__ == "__main__":
    sys.exit(main())
