#!/usr/bin/env python3
"""walks_from_c.py LIBRARY.so: plays the walks of tools/walks through the calls of the C library.

Beside it runs the plain engine in Python (tools/plain_engine.py). Each answer is compared, and after each event, of
each process: which descriptors are open, which file each refers to, and what it is ready for; and the name of each
socket. Some 100,000 seeded events are played, begins and slices of passes among them.

After every other event, drawn by the seed, the two lists are compared. `jw_released` has each file that the plain
engine freed since the lists were emptied last, once, and no other. `jw_changed` has each live socket that an event made
or changed since then, by its state, peer, closed ends, messages or embryos, and each that a shutdown was of, or of its
peer, or that got a target or lost it, once, and no other. A socket that was live then and is live now, is not in
`jw_changed`, and whose peer or target is not, nor in `jw_released`, is ready for what it was then. The lists are emptied
at random moments.

It prints the first differences. The status is 0 where there is none and both lists had something, and else 1. The
library is built from out/libjaywardrobe.a, as tests/embedding.sh does.
"""
import ctypes
import os
import random
import re
import sys
from concurrent.futures import ProcessPoolExecutor
from functools import reduce
from importlib.machinery import SourceFileLoader
from importlib.util import module_from_spec, spec_from_loader
from itertools import islice
from typing import Callable, Dict, Iterator, List, NamedTuple, Set, Tuple

sys.dont_write_bytecode = True
ROOT = os.path.dirname(os.path.dirname(os.path.realpath(__file__)))
sys.path.insert(0, f"{ROOT}/tools")
from plain_engine import MAX_BYTES, Embryo, Event, Message, spelled  # noqa: E402

LOADER = SourceFileLoader("walks", f"{ROOT}/tools/walks")
walks = module_from_spec(spec_from_loader("walks", LOADER))
LOADER.exec_module(walks)

with open(f"{ROOT}/include/jaywardrobe.h", encoding="utf-8") as header:
    ERRORS = {int(number): name for name, number in re.findall(r"JW_(E\w+) = (\d+)", header.read())}
TYPES = {"stream": 1, "seqpacket": 2, "dgram": 4}
HOW = {"read": 0, "write": 1, "both": 2}
# The answer of a call that was done, by its name.
OPENS = {"open", "dup", "dup2", "socket", "accept"}
STARTS = {"spawn", "fork"}
# How many walks of each mix, and how many differences are shown.
WALKS = {"lively": 14, "cramped": 14, "curious": 14, "shut": 14, "mail": 14, "slices": 160}
MOST = 5
# Within how many events the lists are asked for; of how many events one is followed by a look at the lists, and of how
# many looks one by a call that empties them.
ASKED_WITHIN, LOOK_EVERY, EMPTY_EVERY = 20, 2, 6
# The calls that empty both lists, and what is in the places of a list that no call may write.
EMPTIES = ["clear_told", "clear_told", "tell_released", "tell_changed"]
UNWRITTEN = 2**64 - 1


class Pair(ctypes.Structure):
    _fields_ = [("first", ctypes.c_uint32), ("second", ctypes.c_uint32)]


class Received(ctypes.Structure):
    _fields_ = [("fds", ctypes.c_size_t), ("trunc", ctypes.c_bool), ("ctrunc", ctypes.c_bool)]


class Finished(ctypes.Structure):
    _fields_ = [("passed", ctypes.c_uint64), ("reclaimed", ctypes.c_uint64)]


class Ready(ctypes.Structure):
    _fields_ = [(it, ctypes.c_bool) for it in ("readable", "writable", "hung_up")]


class File(ctypes.Structure):
    _fields_ = [("kind", ctypes.c_uint32), ("state", ctypes.c_uint32)] + [
        (it, ctypes.c_uint64) for it in ("peer", "messages", "embryos")
    ]


class Refused(Exception):
    """A call is refused, by the error of this name."""


class Difference(Exception):
    """The library and the plain engine differ."""


class Library:
    """An engine behind the calls of C. Each `do_` does the event of that name, and returns the line of its reply."""

    def __init__(self, path: str):
        self.calls, self.handle = ctypes.CDLL(path), ctypes.byref(ctypes.c_void_p())
        # (a look-up in the library costs more than most calls)
        self.functions: Dict[str, Callable[..., int]] = {}
        self.call("engine_new")

    def function(self, name: str) -> Callable[..., int]:
        """Returns jw_NAME, which answers a number of 64 bits."""
        if name not in self.functions:
            self.functions[name] = self.calls[f"jw_{name}"]
            self.functions[name].restype = ctypes.c_int64
        return self.functions[name]

    def call(self, name: str, *inputs) -> int:
        """Calls jw_NAME with the handle before these inputs."""
        answer = self.function(name)(self.handle, *inputs)
        if answer < 0:
            raise Refused(ERRORS[-answer])
        return answer

    def free(self):
        self.calls.jw_engine_free(self.handle)

    def step(self, event: Event) -> str:
        who = [] if event.pid is None else [ctypes.c_uint32(event.pid)]
        do = getattr(self, f"do_{event.verb}", None)
        try:
            if do:
                return do(*who, *event.values)
            answer = self.call(event.verb, *who, *map(ctypes.c_uint32, event.values))
        except Refused as error:
            return str(error)
        return f"fd {answer}" if event.verb in OPENS else f"pid {answer}" if event.verb in STARTS else "ok"

    def do_spawn(self, user: int, limit: int, *privilege: str) -> str:
        inputs = ctypes.c_uint32(user), ctypes.c_uint32(limit), ctypes.c_bool(bool(privilege))
        return f"pid {self.call('spawn', *inputs)}"

    def do_pair(self, pid, kind: str) -> str:
        out = Pair()
        self.call("pair", pid, ctypes.c_uint32(TYPES[kind]), ctypes.byref(out))
        return f"fds {out.first} {out.second}"

    def do_socket(self, pid, kind: str) -> str:
        return f"fd {self.call('socket', pid, ctypes.c_uint32(TYPES[kind]))}"

    def do_bind(self, pid, on: int, name: str) -> str:
        return self.by_name("bind", pid, on, name)

    def do_connect(self, pid, on: int, name: str) -> str:
        return self.by_name("connect", pid, on, name)

    def by_name(self, verb: str, pid, on: int, name: str) -> str:
        self.call(verb, pid, ctypes.c_uint32(on), name.encode(), ctypes.c_size_t(len(name)))
        return "ok"

    def do_shutdown(self, pid, on: int, how: str) -> str:
        self.call("shutdown", pid, ctypes.c_uint32(on), ctypes.c_uint32(HOW[how]))
        return "ok"

    def do_unconnect(self, pid, on: int) -> str:
        self.call("unconnect", pid, ctypes.c_uint32(on))
        return "ok"

    def do_send(self, pid, on: int, data: bytes, *fds: int) -> str:
        numbers = (ctypes.c_uint32 * max(len(fds), 1))(*fds)
        sizes = ctypes.c_size_t(len(data)), ctypes.c_size_t(len(fds))
        return f"sent {self.call('send', pid, ctypes.c_uint32(on), data, sizes[0], numbers, sizes[1])}"

    def do_recv(self, pid, on: int, most_bytes: int, most_fds: int) -> str:
        return self.received("recv", pid, on, most_bytes, most_fds)

    def do_peek(self, pid, on: int, most_bytes: int, most_fds: int) -> str:
        return self.received("peek", pid, on, most_bytes, most_fds)

    def received(self, verb: str, pid, on: int, most_bytes: int, most_fds: int) -> str:
        data, fds, out = ctypes.create_string_buffer(most_bytes + 1), (ctypes.c_uint32 * (most_fds + 1))(), Received()
        sizes = ctypes.c_size_t(most_bytes), ctypes.c_size_t(most_fds)
        count = self.call(verb, pid, ctypes.c_uint32(on), data, sizes[0], fds, sizes[1], ctypes.byref(out))
        if count == 0:
            return "end"
        numbers = ["fds", *map(str, fds[: out.fds])] if out.fds else []
        return " ".join(["got", spelled(data.raw[:count]), *numbers] + ["trunc"] * out.trunc + ["ctrunc"] * out.ctrunc)

    def do_begin(self) -> str:
        number = ctypes.c_uint64()
        self.call("begin", ctypes.byref(number))
        return f"started {number.value}"

    def do_slice(self, budget: int) -> str:
        return self.collected("slice", ctypes.c_uint32(budget))

    def do_pass(self) -> str:
        return self.collected("pass")

    def collected(self, verb: str, *inputs) -> str:
        out = Finished()
        goes_on = self.call(verb, *inputs, ctypes.byref(out))
        return "working" if goes_on else f"pass {out.passed} reclaimed {out.reclaimed}"

    # The views.

    def table(self, pid: int) -> Iterator[Tuple[int, int]]:
        """The open descriptors of a process by rising number, each with its file."""
        fd, ino = 0, ctypes.c_uint64()
        while True:
            try:
                fd = self.call("next_fd", ctypes.c_uint32(pid), ctypes.c_uint32(fd), ctypes.byref(ino))
            except Refused:
                return
            yield fd, ino.value
            fd += 1

    def ino(self, pid: int, fd: int) -> int:
        ino = ctypes.c_uint64()
        self.call("ino", ctypes.c_uint32(pid), ctypes.c_uint32(fd), ctypes.byref(ino))
        return ino.value

    def ready(self, pid: int, fd: int) -> Tuple[bool, bool, bool]:
        out = Ready()
        self.call("poll", ctypes.c_uint32(pid), ctypes.c_uint32(fd), ctypes.byref(out))
        return out.readable, out.writable, out.hung_up

    def name(self, ino: int) -> str:
        name = ctypes.create_string_buffer(128)
        length = self.call("name", ctypes.c_uint64(ino), name, ctypes.c_size_t(128))
        return name.raw[:length].decode()

    def told(self, name: str) -> List[int]:
        """The list `released` or `changed`. It is asked for with no room, with too little, and with more than it needs;
        the answer is the same, and no number is written beyond the room."""
        count, nothing = self.list_within(name, 0, 1)
        half, few = self.list_within(name, count // 2, count + 1)
        most, whole = self.list_within(name, count + 1, count + 1)
        cut = [*whole[: count // 2], *[UNWRITTEN] * (count + 1 - count // 2)]
        if not count == half == most or nothing != [UNWRITTEN] or few != cut or whole[count] != UNWRITTEN:
            raise Difference(f"jw_{name} answers {count}, {half}, {most}, and writes {nothing}, {few}, {whole}")
        return whole[:count]

    def list_within(self, name: str, room: int, places: int) -> Tuple[int, List[int]]:
        """What a call that fills an array answers where it has this room in so many places, and what stands there."""
        inos = (ctypes.c_uint64 * places)(*[UNWRITTEN] * places)
        return self.call(name, inos, ctypes.c_size_t(room)), list(inos)

    def rows(self) -> List[str]:
        """What waits at each live file, as rows of a table: their sixth and seventh word."""
        found, ino, file = [], ctypes.c_uint64(), File()
        while True:
            self.call("next_after", ino, ctypes.byref(ino))
            if not ino.value:
                return found
            self.call("file", ino, ctypes.byref(file))
            found.append(f"{ino.value} 0 0 kind state {file.messages} {file.embryos} 0 -")


def tables(engine) -> Dict[int, List[Tuple[int, int]]]:
    """The table of each process of the plain engine."""
    found: Dict[int, List[Tuple[int, int]]] = {it.pid: [] for it in engine.processes}
    for (pid, fd), ino in sorted(engine.numbers.items()):
        found[pid].append((fd, ino))
    return found


def compare_views(library: Library, engine):
    """All that a program can ask of descriptors is what the plain engine has."""
    files = {it.ino: it for it in engine.files}
    for pid, table in tables(engine).items():
        if list(library.table(pid)) != table:
            raise Difference(f"table of {pid}: {list(library.table(pid))}, and not {table}")
        for fd, ino in table:
            told, wanted = library.ready(pid, fd), engine.ready(files[ino])
            if told != wanted:
                raise Difference(f"descriptor {fd} of {pid} is ready for {told}, and not {wanted}")
            if library.ino(pid, fd) != ino or library.name(ino) != files[ino].name:
                raise Difference(f"descriptor {fd} of {pid}: another file or name than {ino} {files[ino].name}")


class Socket(NamedTuple):
    """A socket of the plain engine: what it is connected to, which ends are closed, and what waits at it."""

    state: str
    peer: int
    no_input: bool
    no_output: bool
    messages: Tuple[Message, ...]
    embryos: Tuple[Embryo, ...]


def socket_of(engine, file) -> Socket:
    waits = engine.queued(file.ino), engine.waiting(file.ino)
    return Socket(file.state, file.peer, file.no_input, file.no_output, *map(tuple, waits))


def sockets_of(engine) -> Dict[int, Socket]:
    """The live sockets by their numbers."""
    return {it.ino: socket_of(engine, it) for it in engine.files if it.kind != "plain"}


class Looks(NamedTuple):
    """How often the lists were looked at, how many files and sockets they had, and how many sockets they did not have,
    of which each was compared with what it was ready for."""

    looks: int = 0
    released: int = 0
    changed: int = 0
    compared: int = 0

    def with_more(self, other: "Looks") -> "Looks":
        return Looks(*map(sum, zip(self, other)))


class Told:
    """What the library tells of freed files and of readiness, beside what the plain engine had when the lists were
    emptied last. `compare_views` comes before: what jw_poll says of each descriptor is what the plain engine says."""

    def __init__(self, library: Library, seed: str):
        self.library, self.draw = library, random.Random(seed)
        self.left = self.draw.randrange(ASKED_WITHIN)
        self.is_told, self.looks = False, Looks()
        self.live: Set[int] = set()
        self.next_ino = 1
        # The readiness of each socket before.
        self.ready: Dict[int, Tuple[bool, bool, bool]] = {}
        # The sockets behind the last event, and those that an event made, changed, shut or aimed since then.
        self.sockets: Dict[int, Socket] = {}
        self.touched: Set[int] = set()

    def empty(self, engine, *calls: str):
        """Empties the lists by these calls."""
        for name in calls:
            if self.library.call(name) != 0:
                raise Difference(f"jw_{name} does not answer 0")
        if self.library.told("released") or self.library.told("changed"):
            raise Difference(f"a list is not empty after {calls[-1]}")
        self.live, self.next_ino = {it.ino for it in engine.files}, engine.next_ino
        self.ready = {it.ino: engine.ready(it) for it in engine.files if it.kind != "plain"}
        self.touched = set()

    def after_event(self, engine, event: Event, reply: str):
        """Looks at the lists after some events, and empties them after some looks."""
        if event.verb in ("shutdown", "connect", "unconnect") and reply == "ok":
            file = engine.file(engine.numbers[event.pid, event.values[0]])
            self.touched.update({file.ino} if file.is_datagram else {file.ino, file.peer})
        before, self.sockets = self.sockets, sockets_of(engine)
        self.touched.update(ino for ino, it in self.sockets.items() if before.get(ino) != it)
        if not self.is_told:
            if self.library.told("released") or self.library.told("changed"):
                raise Difference("something is told, and nobody asked")
            self.left -= 1
            if self.left < 0:
                self.is_told = True
                self.empty(engine, *self.draw.sample(["tell_released", "tell_changed"], 2))
        elif self.draw.randrange(LOOK_EVERY) == 0:
            self.look(engine)
            if self.draw.randrange(EMPTY_EVERY) == 0:
                self.empty(engine, self.draw.choice(EMPTIES))

    def look(self, engine):
        """Compares both lists with what the plain engine has now and had then."""
        files = {it.ino: it for it in engine.files}
        gone = sorted(self.live.union(range(self.next_ino, engine.next_ino)).difference(files))
        released, changed = self.library.told("released"), self.library.told("changed")
        if sorted(released) != gone:
            raise Difference(f"freed files: {sorted(released)}, and not {gone}")
        sockets, told = {it for it in files if files[it].kind != "plain"}, set(changed)
        if len(told) < len(changed) or told != sockets & self.touched:
            raise Difference(f"changed sockets: {sorted(changed)}, and not {sorted(sockets & self.touched)}")
        compared = [it for it in sockets - told if it in self.ready and files[it].peer not in told.union(gone)]
        for ino in compared:
            now = engine.ready(files[ino])
            if now != self.ready[ino]:
                raise Difference(f"socket {ino} is ready for {now} after {self.ready[ino]}, and is not told: {changed}")
        self.looks = self.looks.with_more(Looks(1, len(released), len(changed), len(compared)))


def events_of(name: str, number: int) -> Iterator[Event]:
    """The events of a walk. Those of one without slices are drawn by the plain engine's replies."""
    mix, seed = walks.MIXES[name], f"{name} from C {number}"
    if walks.is_sliced(name, number):
        yield from islice(walks.sliced_events(mix, seed), walks.SLICED)
        return
    source, engine = walks.Source(mix, seed), walks.Engine()
    for _ in range(walks.EVENTS // 4):
        event = source.event()
        yield event
        source.note(event, engine.step(from_c(event)))


def from_c(event: Event) -> Event:
    """The event that a call does: room for more bytes than a message can have is taken for that many."""
    if event.verb not in ("recv", "peek"):
        return event
    on, most_bytes, most_fds = event.values
    return event._replace(values=(on, min(most_bytes, MAX_BYTES), most_fds))


def played(task: Tuple[str, str, int]) -> Tuple[int, str, Looks]:
    """Plays a walk: how many events it has, the first difference, and the looks at the lists."""
    path, name, number = task
    library, plain, count = Library(path), walks.Sliced(), 0
    lists = Told(library, f"{name} told {number}")
    for event in events_of(name, number):
        count += 1
        told = library.step(event)
        wanted = plain.slice(event, told, library.rows()) if event.verb == "slice" else plain.other(from_c(event))
        try:
            if told != wanted:
                raise Difference(f"{told[:80]!r}, and not {wanted[:80]!r}")
            compare_views(library, plain.engine)
            lists.after_event(plain.engine, event, told)
        except Difference as it:
            return count, f"{name}, seed {number}, event {count}: {event.line()[:80]}: {it}", lists.looks
    library.free()
    return count, "", lists.looks


def main() -> int:
    if len(sys.argv) != 2:
        print(__doc__, file=sys.stderr)
        return 2
    try:
        ctypes.CDLL(os.path.realpath(sys.argv[1]))
    except OSError as error:
        print(f"walks_from_c.py: {error}", file=sys.stderr)
        return 2
    tasks = [(os.path.realpath(sys.argv[1]), name, it) for name, count in WALKS.items() for it in range(1, count + 1)]
    with ProcessPoolExecutor(len(os.sched_getaffinity(0))) as pool:
        outcomes = list(pool.map(played, tasks))
    faults = [it for _, it, _ in outcomes if it]
    looks = reduce(Looks.with_more, (it for _, _, it in outcomes))
    print(*faults[:MOST], sep="\n", end="\n" if faults else "")
    print(f"walks from C: {sum(count for count, _, _ in outcomes):,} events, {len(faults)} walks differ")
    print(f"    {looks.looks:,} looks at the lists: {looks.released:,} freed files, {looks.changed:,} changed sockets,")
    print(f"    {looks.compared:,} comparisons of a socket that is not listed")
    return 1 if faults or 0 in looks else 0


if __name__ == "__main__":
    sys.exit(main())
