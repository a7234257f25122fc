"""A plain engine for the events of scripts (docs/SCRIPTS.md): a second opinion, which tools/walks compares.

It keeps no count: there are plain lists, of processes, of files, of messages and of embryos, and what each open number
stands for; and each answer is a walk over them. After each event that was done all files are looked at for one that
nothing holds. It is slow, and so short that a reader sees what it does. Tests stand in the order in which they are
answered. Memory is ample: it never answers ENOMEM.
"""
import itertools
import re
from collections import Counter
from dataclasses import dataclass
from typing import Dict, Iterator, List, NamedTuple, Optional, Set, Tuple, Union

MAX_PROCESSES = 1024
MAX_NOFILE = 1024
MAX_FILES = 65_536
MAX_MESSAGES = 64
MAX_BYTES = 65_536
SCM_MAX_FD = 253
MAX_BACKLOG = 128
MAX_INFLIGHT = 1_048_576
MAX_BUDGET = 65_536
# The valid names: 1 to 107 letters, digits, '-', '.' and '_' (unix(7)).
NAME = re.compile(r"[A-Za-z0-9._-]{1,107}")
# Each byte as a script and a reply have it.
SPELLED = [chr(it) if re.match(rb"[A-Za-z0-9_.-]", bytes([it])) else f"%{it:02X}" for it in range(256)]
REPORTS = "table", "totals", "check"
HEADER = "   inode    refs     fly kind      state     msgs wait     peer name\n"
Value = Union[int, str, bytes]


class Refused(Exception):
    """The event is refused, by the error of this name."""


class Event(NamedTuple):
    """A line of a script: what happens, which process does it, if one does, and the words behind."""

    verb: str
    pid: Optional[int] = None
    values: Tuple[Value, ...] = ()

    def line(self) -> str:
        who = [] if self.pid is None else [str(self.pid)]
        return " ".join([*who, self.verb, *map(spelled, self.values)])


def spelled(value: Value) -> str:
    """A word of a script; no byte is '*0', since a word cannot be empty."""
    if isinstance(value, bytes):
        return "".join(map(SPELLED.__getitem__, value)) or "*0"
    return str(value)


@dataclass(eq=False)
class Process:
    """A process, with its limit on descriptors."""

    pid: int
    user: int
    limit: int
    is_privileged: bool


@dataclass(eq=False)
class File:
    """An open file description. A plain file is of the kind 'plain', and its state is '-'."""

    ino: int
    kind: str
    state: str
    # The live socket that it is connected to, or 0; or the socket that a datagram socket sends to, also a freed one.
    peer: int = 0
    # How many may wait at a listener.
    backlog: int = 0
    name: str = ""
    # Whether shutdown(2) closed its input, and its output: of it, or of its peer.
    no_input: bool = False
    no_output: bool = False

    @property
    def is_datagram(self) -> bool:
        """Whether it is of the type 'dgram'. Its state is 'connected' where it sends to a socket, and else 'idle'."""
        return self.kind == "dgram"

    @property
    def was_connected(self) -> bool:
        """Whether it can send and receive, or could. A datagram socket always can receive."""
        return self.is_datagram or self.state in ("connected", "hungup")

    @property
    def is_ended(self) -> bool:
        """Whether nothing more comes to a socket that was connected. A datagram socket has no end."""
        return self.state == "hungup" or self.state == "connected" and self.no_input and not self.is_datagram

    def shut(self, input_too: bool, output_too: bool):
        """Closes ends, which never open again."""
        self.no_input, self.no_output = self.no_input or input_too, self.no_output or output_too


class Message(NamedTuple):
    """A message that waits at a socket: its bytes, the files that travel with it, and who is charged for them."""

    at: int
    data: bytes
    attached: Tuple[int, ...]
    user: int


class Embryo(NamedTuple):
    """A socket that waits at a listener to be accepted."""

    at: int
    ino: int


class Engine:
    """A machine that does one event after another. Each `do_` does the event of that name, and the text of a report is
    made by the call of its name."""

    def __init__(self):
        self.processes: List[Process] = []
        # The files of all open descriptors, by process and descriptor.
        self.numbers: Dict[Tuple[int, int], int] = {}
        # The live files by rising number.
        self.files: List[File] = []
        # The contents of all queues and of all backlogs, oldest first.
        self.messages: List[Message] = []
        self.embryos: List[Embryo] = []
        # In the order of their first process.
        self.users: List[int] = []
        self.next_pid, self.next_ino, self.last_pass = 1, 1, 0
        # Whether a pass is running, and what was garbage when the last one began.
        self.is_passing = False
        self.lost: List[File] = []

    def step(self, event: Event) -> str:
        """Does one event, and returns the line of its reply."""
        try:
            who = [] if event.pid is None else [self.process(event.pid)]
            reply = getattr(self, f"do_{event.verb}")(*who, *event.values)
        except Refused as error:
            return str(error)
        self.settle()
        return reply

    def settle(self):
        """Files that no place holds go, one by one, until there is none."""
        while True:
            held = set(self.places())
            gone = next((it for it in self.files if it.ino not in held), None)
            if not gone:
                return
            self.drop(gone)

    def drop(self, gone: File):
        """A file goes with its queue, its backlog and its name, and its peer hangs up. Datagram sockets that send to it
        go on to, in vain."""
        self.files.remove(gone)
        self.empty({gone.ino})
        for file in self.files:
            if file.peer == gone.ino and not file.is_datagram:
                file.state, file.peer = "hungup", 0

    def empty(self, inos: Set[int]):
        """What waits at these files goes."""
        self.messages = [it for it in self.messages if it.at not in inos]
        self.embryos = [it for it in self.embryos if it.at not in inos]

    # The collector's events.

    def do_begin(self) -> str:
        if self.is_passing:
            raise Refused("EBUSY")
        self.is_passing, self.lost = True, self.garbage()
        self.last_pass += 1
        return f"started {self.last_pass}"

    def do_slice(self, budget: int) -> str:
        """Which files a slice empties, and whether the pass is over then, is the other engine's choice."""
        if not self.is_passing:
            raise Refused("EIDLE")
        if not 1 <= budget <= MAX_BUDGET:
            raise Refused("EINVAL")
        return "working"

    def do_pass(self) -> str:
        """The queues and backlogs of all files that are not reached are emptied."""
        self.do_begin()
        self.empty({it.ino for it in self.lost})
        return self.end_pass()

    def end_pass(self) -> str:
        self.is_passing = False
        return f"pass {self.last_pass} reclaimed {sum(it.kind != 'plain' for it in self.lost)}"

    # The steps of processes.

    def do_spawn(self, user: int, limit: int, *privilege: str) -> str:
        if limit > MAX_NOFILE:
            raise Refused("ERANGE")
        pid = self.add_process(user, limit, bool(privilege))
        if user not in self.users:
            self.users.append(user)
        return f"pid {pid}"

    def do_open(self, process: Process) -> str:
        fd = self.lowest_free(process)
        self.check_room(1)
        self.numbers[process.pid, fd] = self.add_file("plain", "-").ino
        return f"fd {fd}"

    def do_dup(self, process: Process, old: int) -> str:
        ino = self.lookup(process, old)
        fd = self.lowest_free(process)
        self.numbers[process.pid, fd] = ino
        return f"fd {fd}"

    def do_dup2(self, process: Process, old: int, new: int) -> str:
        ino = self.lookup(process, old)
        if new != old and new >= process.limit:
            raise Refused("EBADF")
        self.numbers[process.pid, new] = ino
        return f"fd {new}"

    def do_close(self, process: Process, fd: int) -> str:
        self.lookup(process, fd)
        del self.numbers[process.pid, fd]
        return "ok"

    def do_fork(self, process: Process) -> str:
        child = self.add_process(process.user, process.limit, process.is_privileged)
        for (pid, fd), ino in list(self.numbers.items()):
            if pid == process.pid:
                self.numbers[child, fd] = ino
        return f"pid {child}"

    def do_exit(self, process: Process) -> str:
        self.processes.remove(process)
        self.numbers = {(pid, fd): ino for (pid, fd), ino in self.numbers.items() if pid != process.pid}
        return "ok"

    def do_limit(self, process: Process, limit: int) -> str:
        if limit > MAX_NOFILE:
            raise Refused("ERANGE")
        process.limit = limit
        return "ok"

    # The steps that make sockets, name them and connect them.

    def do_pair(self, process: Process, kind: str) -> str:
        lower = self.lowest_free(process)
        higher = self.lowest_free(process, lower + 1)
        self.check_room(2)
        first, second = self.add_file(kind, "idle"), self.add_file(kind, "idle")
        connect(first, second)
        self.numbers[process.pid, lower], self.numbers[process.pid, higher] = first.ino, second.ino
        return f"fds {lower} {higher}"

    def do_socket(self, process: Process, kind: str) -> str:
        fd = self.lowest_free(process)
        self.check_room(1)
        self.numbers[process.pid, fd] = self.add_file(kind, "idle").ino
        return f"fd {fd}"

    def do_bind(self, process: Process, on: int, name: str) -> str:
        socket = self.socket_at(process, on)
        is_late = socket.state != "idle" and not socket.is_datagram
        if socket.name or is_late or not NAME.fullmatch(name):
            raise Refused("EINVAL")
        if self.named(name, socket.is_datagram):
            raise Refused("EADDRINUSE")
        socket.name = name
        return "ok"

    def do_listen(self, process: Process, on: int, backlog: int) -> str:
        socket = self.socket_at(process, on)
        if socket.is_datagram:
            raise Refused("EOPNOTSUPP")
        if not socket.name or socket.state != "idle" or not 1 <= backlog <= MAX_BACKLOG:
            raise Refused("EINVAL")
        socket.state, socket.backlog = "listening", backlog
        return "ok"

    def do_connect(self, process: Process, on: int, name: str) -> str:
        """The client is connected to an embryo, which waits at the listener; a datagram socket sends to the one of this
        name from now on."""
        client = self.socket_at(process, on)
        if client.is_datagram:
            self.turn(client, self.target_named(client, name).ino)
            return "ok"
        if client.state != "idle":
            raise Refused("EINVAL" if client.state == "listening" else "EISCONN")
        listener = self.named(name, False)
        if not listener or listener.state != "listening" or listener.no_input:
            raise Refused("ECONNREFUSED")
        if listener.kind != client.kind:
            raise Refused("EPROTOTYPE")
        if len(self.waiting(listener.ino)) >= listener.backlog:
            raise Refused("EAGAIN")
        self.check_room(1)
        embryo = self.add_file(client.kind, "idle")
        connect(client, embryo)
        self.embryos.append(Embryo(listener.ino, embryo.ino))
        return "ok"

    def do_accept(self, process: Process, on: int) -> str:
        listener = self.socket_at(process, on)
        if listener.is_datagram:
            raise Refused("EOPNOTSUPP")
        if listener.state != "listening":
            raise Refused("EINVAL")
        waiting = self.waiting(listener.ino)
        if not waiting:
            raise Refused("EAGAIN")
        fd = self.lowest_free(process)
        self.embryos.remove(waiting[0])
        self.numbers[process.pid, fd] = waiting[0].ino
        return f"fd {fd}"

    def do_unconnect(self, process: Process, on: int) -> str:
        """A datagram socket sends to none any more."""
        socket = self.socket_at(process, on)
        if not socket.is_datagram:
            raise Refused("EINVAL")
        self.turn(socket, 0)
        return "ok"

    def do_shutdown(self, process: Process, on: int, how: str) -> str:
        """The peer's output goes with the input of a socket, and the peer's input with its output. A datagram socket's
        ends go alone. What waits stays."""
        socket = self.socket_at(process, on)
        ends = how != "write", how != "read"
        socket.shut(*ends)
        if socket.peer and not socket.is_datagram:
            self.file(socket.peer).shut(*reversed(ends))
        return "ok"

    def turn(self, socket: File, target: int):
        """A datagram socket sends to this one from now on, or to none, which is 0. Where it sent to another, what waits
        at it is lost."""
        if socket.peer not in (0, target):
            self.empty({socket.ino})
        socket.state, socket.peer = "connected" if target else "idle", target

    def target_named(self, socket: File, name: str) -> File:
        """The datagram socket of this name, which takes messages of this one."""
        target = self.named(name, True)
        if not target:
            raise Refused("ECONNREFUSED")
        self.check_may_send(socket, target)
        return target

    def check_may_send(self, socket: File, target: File):
        """A socket that sends to one takes messages of that one alone."""
        if target.peer not in (0, socket.ino):
            raise Refused("EPERM")

    # Messages.

    def do_send(self, process: Process, on: int, data: bytes, *fds: int) -> str:
        socket = self.socket_at(process, on)
        if not data or len(fds) > SCM_MAX_FD:
            raise Refused("EINVAL")
        if len(data) > MAX_BYTES:
            raise Refused("EMSGSIZE")
        attached = tuple(self.lookup(process, it) for it in fds)
        target = self.target_of(socket)
        if fds and self.charged(process.user) > process.limit and not process.is_privileged:
            raise Refused("ETOOMANYREFS")
        if sum(map(self.charged, self.users)) + len(fds) > MAX_INFLIGHT:
            raise Refused("ENOBUFS")
        self.check_takes(target)
        self.messages.append(Message(target.ino, data, attached, process.user))
        return f"sent {len(data)}"

    def target_of(self, socket: File) -> File:
        """The live socket to which a send goes."""
        if not socket.was_connected:
            raise Refused("ENOTCONN")
        if socket.state == "hungup" or socket.no_output:
            raise Refused("EPIPE")
        if not socket.peer:
            raise Refused("ENOTCONN")
        target = next((it for it in self.files if it.ino == socket.peer), None)
        if not target:
            raise Refused("ECONNREFUSED")
        self.check_may_send(socket, target)
        return target

    def check_takes(self, target: File):
        """One message more may come to this socket."""
        if target.no_input:
            raise Refused("EPIPE")
        if len(self.queued(target.ino)) >= MAX_MESSAGES:
            raise Refused("EAGAIN")

    def do_recv(self, process: Process, on: int, most_bytes: int, most_fds: int) -> str:
        socket = self.socket_at(process, on)
        if not 1 <= most_bytes <= MAX_BYTES:
            raise Refused("EINVAL")
        if not socket.was_connected:
            raise Refused("ENOTCONN")
        if not self.queued(socket.ino):
            if socket.is_ended:
                return "end"
            raise Refused("EAGAIN")
        data, attached, is_cut = self.take(socket, most_bytes)
        fds = self.install(process, attached[:most_fds])
        words = ["got", spelled(data), *(["fds", *map(str, fds)] if fds else [])]
        return " ".join(words + ["trunc"] * is_cut + ["ctrunc"] * (len(fds) < len(attached)))

    def do_peek(self, process: Process, on: int, most_bytes: int, most_fds: int) -> str:
        """A receive whose messages are put back as they were, before what nothing holds goes."""
        kept = list(self.messages)
        reply = self.do_recv(process, on, most_bytes, most_fds)
        self.messages = kept
        return reply

    def take(self, socket: File, most: int) -> Tuple[bytes, Tuple[int, ...], bool]:
        """Takes bytes from a socket, with the files that come with them, and tells whether bytes were dropped. The rest
        of a packet is dropped; files end a receive from a stream, with the message that had them."""
        data, attached, is_packet = b"", (), socket.kind != "stream"
        for place, message in enumerate(self.messages):
            if message.at != socket.ino:
                continue
            count = most - len(data)
            data, attached, rest = data + message.data[:count], message.attached, message.data[count:]
            self.messages[place] = message._replace(data=b"" if is_packet else rest, attached=())
            if is_packet or attached or len(data) == most:
                break
        self.messages = [it for it in self.messages if it.data]
        return data, attached, is_packet and bool(rest)

    def install(self, process: Process, inos: Tuple[int, ...]) -> List[int]:
        """The first of the files get the lowest free numbers, as long as there are any."""
        fds = []
        for ino in inos:
            try:
                fd = self.lowest_free(process)
            except Refused:
                break
            self.numbers[process.pid, fd] = ino
            fds.append(fd)
        return fds

    # The common parts of steps.

    def process(self, pid: int) -> Process:
        for process in self.processes:
            if process.pid == pid:
                return process
        raise Refused("ESRCH")

    def add_process(self, user: int, limit: int, is_privileged: bool) -> int:
        if len(self.processes) == MAX_PROCESSES:
            raise Refused("EAGAIN")
        self.processes.append(Process(self.next_pid, user, limit, is_privileged))
        self.next_pid += 1
        return self.next_pid - 1

    def lookup(self, process: Process, fd: int) -> int:
        """What the number stands for."""
        if (process.pid, fd) not in self.numbers:
            raise Refused("EBADF")
        return self.numbers[process.pid, fd]

    def lowest_free(self, process: Process, start: int = 0) -> int:
        for fd in range(start, process.limit):
            if (process.pid, fd) not in self.numbers:
                return fd
        raise Refused("EMFILE")

    def check_room(self, count: int):
        """So many files more may be made."""
        if len(self.files) + count > MAX_FILES:
            raise Refused("ENFILE")

    def add_file(self, kind: str, state: str) -> File:
        self.files.append(File(self.next_ino, kind, state))
        self.next_ino += 1
        return self.files[-1]

    def socket_at(self, process: Process, fd: int) -> File:
        """The socket that the number stands for."""
        file = self.file(self.lookup(process, fd))
        if file.kind == "plain":
            raise Refused("ENOTSOCK")
        return file

    def file(self, ino: int) -> File:
        """The live file of this number."""
        return next(it for it in self.files if it.ino == ino)

    def named(self, name: str, is_datagram: bool) -> Optional[File]:
        """The socket of this name. Datagram sockets have names of their own."""
        return next((it for it in self.files if it.name == name and it.is_datagram == is_datagram), None)

    # The views.

    def places(self) -> Iterator[int]:
        """What stands in each place that holds a file: tables, queues and backlogs."""
        return itertools.chain(self.numbers.values(), self.in_flight(), (it.ino for it in self.embryos))

    def in_flight(self) -> Iterator[int]:
        """What stands in each place of all queues."""
        return itertools.chain.from_iterable(it.attached for it in self.messages)

    def charged(self, user: int) -> int:
        """How many places of all queues are charged to the user."""
        return sum(len(it.attached) for it in self.messages if it.user == user)

    def queued(self, ino: int) -> List[Message]:
        return [it for it in self.messages if it.at == ino]

    def waiting(self, ino: int) -> List[Embryo]:
        return [it for it in self.embryos if it.at == ino]

    def reached(self) -> Set[int]:
        """The files that a chain of queues and backlogs leads to from a table."""
        reached, before = set(self.numbers.values()), 0
        while len(reached) > before:
            before = len(reached)
            for message in self.messages:
                if message.at in reached:
                    reached.update(message.attached)
            reached.update(it.ino for it in self.embryos if it.at in reached)
        return reached

    def garbage(self) -> List[File]:
        reached = self.reached()
        return [it for it in self.files if it.ino not in reached]

    def ready(self, file: File) -> Tuple[bool, bool, bool]:
        """What poll(2) tells of a file: whether it is readable and writable, and whether it is hung up: its peer is
        gone, or both its ends are closed."""
        if file.kind == "plain":
            return True, True, False
        is_readable = file.is_ended or bool(self.queued(file.ino)) or bool(self.waiting(file.ino))
        return is_readable, self.is_writable(file), file.state == "hungup" or file.no_input and file.no_output

    def is_writable(self, socket: File) -> bool:
        """Whether a send of a byte is not refused. That of a datagram socket may be, but not for a full queue."""
        try:
            self.check_takes(self.target_of(socket))
            return True
        except Refused as error:
            return socket.is_datagram and str(error) != "EAGAIN"

    def table(self) -> str:
        """The text of the report `table`."""
        counts = self.places(), self.in_flight(), (it.at for it in self.messages), (it.at for it in self.embryos)
        refs, fly, queued, waiting = (Counter(it).get for it in counts)
        rows = [
            f"{ino:8} {refs(ino, 0):7} {fly(ino, 0):7} {it.kind:9} {it.state:9} {queued(ino, 0):4} {waiting(ino, 0):4} "
            f"{it.peer:8} {'@' + it.name if it.name else '-'}\n"
            for it in self.files
            for ino in [it.ino]
        ]
        return HEADER + "".join(rows)

    def totals(self) -> str:
        """The text of the report `totals`."""
        return "".join(f"user {it} inflight {self.charged(it)}\n" for it in self.users)

    def check(self) -> str:
        """The text of the report `check`."""
        return f"check ok live {len(self.files)} garbage {len(self.garbage())}\n"

    def reports(self) -> str:
        """The text of all reports, one behind the other."""
        return "".join(getattr(self, it)() for it in REPORTS)


def connect(one: File, other: File):
    """Two sockets are connected to each other."""
    one.state, one.peer, other.state, other.peer = "connected", other.ino, "connected", one.ino
