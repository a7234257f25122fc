"""Real processes and sockets that do the events of scripts (docs/SCRIPTS.md), for kernel_walks.py.

Each process of a script is a process of this machine, with the same descriptors at the same
numbers: its limit is RLIMIT_NOFILE, its user a user of the walk's own. A plain file is the writing
end of a named pipe, whose reading end tells when it was freed. Each process answers over two named
pipes, at numbers above every limit.
"""
import array
import ctypes
import errno
import fcntl
import json
import os
import re
import resource
import select
import signal
import socket
import stat
import struct
import sys
from typing import Any, Callable, Dict, List, NamedTuple, NoReturn, Optional, Set, Tuple

from plain_engine import MAX_MESSAGES, MAX_NOFILE, Event, spelled

# The events that poll(2) reports, by descriptor.
Ready = Dict[int, int]
Socket = socket.socket
TYPES = {
    "stream": socket.SOCK_STREAM,
    "seqpacket": socket.SOCK_SEQPACKET,
    "dgram": socket.SOCK_DGRAM,
}
HOW = {"read": socket.SHUT_RD, "write": socket.SHUT_WR, "both": socket.SHUT_RDWR}
LIBC = ctypes.CDLL(None, use_errno=True)
CLONE_NEWNET = 0x40000000
PR_SET_KEEPCAPS, PR_SET_CHILD_SUBREAPER = 8, 36
CAP_SYS_ADMIN = 21
# An address of the family AF_UNSPEC.
NO_ADDRESS = struct.pack("H14x", socket.AF_UNSPEC)
# How many datagrams fit in a queue, with one more; and which error has two names.
MAX_DGRAM_QLEN = "/proc/sys/net/unix/max_dgram_qlen"
OF_TWO_NAMES = {"ENOTSUP": "EOPNOTSUPP"}
# The two pipes of a process, above each limit; and its hard limit.
ORDERS, ANSWERS, MOST_FILES = MAX_NOFILE + 76, MAX_NOFILE + 77, 4096
# The oldest Linux whose sockets are compared.
OLDEST = 6, 18
# The highest number that a walk uses, and how long a process may take for an answer.
LAST_FD, SECONDS = 127, 20


class Answer(NamedTuple):
    """What a process said of an event: its reply as a script has it, its open numbers with the
    inode of each, and what poll(2) tells of its sockets, by number."""

    reply: str
    inodes: Dict[int, int]
    ready: Ready


class Stuck(Exception):
    """A process does not answer."""


def libc(call: str, *words: Any):
    if getattr(LIBC, call)(*words) < 0:
        number = ctypes.get_errno()
        raise OSError(number, f"{call}: {os.strerror(number)}")


# The side of a process: it does the events.


def opened(fd: int, kind: str) -> Socket:
    """The number as a socket object, which is to be detached. It need not be a socket."""
    return socket.socket(socket.AF_UNIX, TYPES.get(kind, socket.SOCK_STREAM), 0, fileno=fd)


def new(*made: Socket) -> List[int]:
    for it in made:
        it.setblocking(False)
    return [it.detach() for it in made]


def limit_to(count: int):
    resource.setrlimit(resource.RLIMIT_NOFILE, (count, MOST_FILES))


class Steps:
    """The events that a process does. Each returns the reply."""

    def open(self, path: str) -> str:
        return f"fd {os.open(path, os.O_WRONLY)}"

    def dup(self, fd: int) -> str:
        return f"fd {fcntl.fcntl(fd, fcntl.F_DUPFD, 0)}"

    def dup2(self, old: int, number: int) -> str:
        return f"fd {os.dup2(old, number)}"

    def close(self, fd: int) -> str:
        os.close(fd)
        return "ok"

    def limit(self, count: int) -> str:
        limit_to(count)
        return "ok"

    def pair(self, kind: str) -> str:
        one, other = new(*socket.socketpair(socket.AF_UNIX, TYPES[kind]))
        return f"fds {one} {other}"

    def socket(self, kind: str) -> str:
        return f"fd {new(socket.socket(socket.AF_UNIX, TYPES[kind]))[0]}"

    def bind(self, fd: int, name: str) -> str:
        return self.on(fd, lambda it: it.bind(f"\0{name}"))

    def listen(self, fd: int, backlog: int) -> str:
        """One more than it is told can wait at a listener of Linux."""
        return self.on(fd, lambda it: it.listen(backlog - 1))

    def connect(self, fd: int, name: str) -> str:
        return self.on(fd, lambda it: it.connect(f"\0{name}"))

    def accept(self, fd: int) -> str:
        return self.on(fd, lambda it: f"fd {new(it.accept()[0])[0]}")

    def unconnect(self, fd: int) -> str:
        libc("connect", fd, NO_ADDRESS, len(NO_ADDRESS))
        return "ok"

    def shutdown(self, fd: int, how: str) -> str:
        return self.on(fd, lambda it: it.shutdown(HOW[how]))

    def send(self, fd: int, data: str, *fds: int) -> str:
        files = [(socket.SOL_SOCKET, socket.SCM_RIGHTS, array.array("i", fds))] if fds else []
        flags = socket.MSG_NOSIGNAL | socket.MSG_DONTWAIT
        return self.on(fd, lambda it: f"sent {it.sendmsg([bytes.fromhex(data)], files, flags)}")

    def recv(self, fd: int, most: int, most_fds: int, flags: int = 0) -> str:
        """CMSG_SPACE would have room for one descriptor more than an odd number."""
        room = socket.CMSG_LEN(4 * most_fds) if most_fds else 0
        flags |= socket.MSG_DONTWAIT
        return self.on(fd, lambda it: received(*it.recvmsg(most, room, flags)[:3]))

    def peek(self, fd: int, most: int, most_fds: int) -> str:
        return self.recv(fd, most, most_fds, socket.MSG_PEEK)

    @staticmethod
    def on(fd: int, step: Callable[[Socket], Optional[str]]) -> str:
        it = opened(fd, "")
        try:
            return step(it) or "ok"
        finally:
            it.detach()


def received(data: bytes, files: List[Tuple[int, int, bytes]], flags: int) -> str:
    parts = (part[: len(part) // 4 * 4] for _, _, part in files)
    fds = [fd for part in parts for fd, in struct.iter_unpack("i", part)]
    if not data and not fds and not flags & socket.MSG_CTRUNC:
        return "end"
    words = ["got", spelled(data), *(["fds", *map(str, fds)] if fds else [])]
    words += ["trunc"] * bool(flags & socket.MSG_TRUNC)
    return " ".join(words + ["ctrunc"] * bool(flags & socket.MSG_CTRUNC))


def inodes_of_open() -> Dict[int, Tuple[int, bool]]:
    """All open numbers, with the inode and whether it is a socket."""
    found = {}
    for fd in range(LAST_FD + 1):
        try:
            it = os.fstat(fd)
            found[fd] = it.st_ino, stat.S_ISSOCK(it.st_mode)
        except OSError:
            pass
    return found


def look() -> Tuple[Dict[int, int], Ready]:
    """The open numbers with the inode of each, and what poll(2) tells of the sockets. poll(2) takes
    no more descriptors than the limit, so that is raised meanwhile."""
    soft, _ = resource.getrlimit(resource.RLIMIT_NOFILE)
    limit_to(MOST_FILES)
    files = inodes_of_open()
    sockets = select.poll()
    for fd, (_, is_socket) in files.items():
        if is_socket:
            sockets.register(fd, select.POLLIN | select.POLLOUT)
    ready = dict(sockets.poll(0))
    limit_to(soft)
    return {fd: inode for fd, (inode, _) in files.items()}, ready


def take_pipes(folder: str, pid: int):
    """Opens the pipes of this process, at numbers above each limit."""
    soft, _ = resource.getrlimit(resource.RLIMIT_NOFILE)
    limit_to(MOST_FILES)
    for name, mode, number in (("orders", os.O_RDONLY, ORDERS), ("answers", os.O_WRONLY, ANSWERS)):
        fd = os.open(f"{folder}/{pid}.{name}", mode)
        os.dup2(fd, number)
        os.close(fd)
    limit_to(soft)


def fork(folder: str, pid: int) -> str:
    """Makes a child, which goes on as the process of this number."""
    child = os.fork()
    if child:
        return f"pid {child}"
    take_pipes(folder, pid)
    return f"pid {os.getpid()}"


def do(verb: str, *words: Any) -> str:
    try:
        if verb == "fork":
            return fork(*words)
        return getattr(Steps(), verb)(*words)
    except OSError as error:
        name = errno.errorcode[error.errno]
        return OF_TWO_NAMES.get(name, name)


def serve(folder: str, pid: int) -> NoReturn:
    """Does the orders that come, until there is an exit."""
    os.closerange(0, ORDERS)
    os.closerange(ANSWERS + 1, MOST_FILES)
    take_pipes(folder, pid)
    text = b""
    while True:
        while b"\n" not in text:
            text += os.read(ORDERS, 65536)
        line, _, text = text.partition(b"\n")
        verb, *words = json.loads(line)
        if verb == "exit":
            os._exit(0)
        reply = do(verb, *words) if verb else ""
        os.write(ANSWERS, json.dumps([reply, *look()]).encode() + b"\n")


def become(user: int, limit: int, is_privileged: bool):
    """Takes the user and the limit, with no capability, or with the one that spares a sender of
    ETOOMANYREFS."""
    limit_to(limit)
    libc("prctl", PR_SET_KEEPCAPS, int(is_privileged), 0, 0, 0)
    os.setresgid(user, user, user)
    os.setresuid(user, user, user)
    if is_privileged:
        header = struct.pack("Ii", 0x20080522, 0)
        has = 1 << CAP_SYS_ADMIN
        libc("capset", header, struct.pack("6I", has, has, 0, 0, 0, 0))


# The side that drives the processes.


class Process:
    """A process of a script, as it is driven."""

    def __init__(self, folder: str, pid: int):
        self.paths = [f"{folder}/{pid}.{it}" for it in ("orders", "answers")]
        for path in self.paths:
            os.mkfifo(path)
            os.chmod(path, 0o666)
        self.orders, self.answers = (os.open(it, os.O_RDWR) for it in self.paths)
        self.text = b""
        # Its number on this machine, and a descriptor of it.
        self.number, self.ends = 0, -1

    def began(self, number: int):
        self.number, self.ends = number, os.pidfd_open(number)

    def order(self, *words: Any):
        os.write(self.orders, json.dumps(words).encode() + b"\n")

    def answer(self) -> Answer:
        while b"\n" not in self.text:
            if not select.select([self.answers], [], [], SECONDS)[0]:
                raise Stuck(f"process {self.number} does not answer")
            self.text += os.read(self.answers, 65536)
        line, _, self.text = self.text.partition(b"\n")
        reply, inodes, ready = json.loads(line)
        by_number = [{int(fd): it for fd, it in found.items()} for found in (inodes, ready)]
        return Answer(reply, *by_number)

    def wait(self):
        """Waits until it has ended, with all its descriptors closed."""
        if not select.select([self.ends], [], [], SECONDS)[0]:
            raise Stuck(f"process {self.number} does not end")

    def close(self):
        for fd in (self.orders, self.answers, self.ends):
            if fd >= 0:
                os.close(fd)
        for path in self.paths:
            os.unlink(path)


class Kernel:
    """The processes of a script on this machine. Their users are `first_user` and above."""

    def __init__(self, folder: str, first_user: int):
        self.folder, self.first_user = folder, first_user
        self.processes: Dict[int, Process] = {}
        # The reading ends of plain files, by the file's number in the script.
        self.pipes: Dict[int, int] = {}

    def do(self, event: Event, pid: int, ino: int) -> Answer:
        """Does an event. A new process gets the number `pid`, and a plain file the number `ino`."""
        if event.verb == "spawn":
            return self.spawn(pid, *event.values)
        process = self.processes[event.pid]
        if event.verb == "fork":
            return self.fork(process, pid)
        if event.verb == "exit":
            return self.exit(event.pid)
        if event.verb == "open":
            return self.open(process, ino)
        values = [it.hex() if isinstance(it, bytes) else it for it in event.values]
        process.order(event.verb, *values)
        return process.answer()

    def spawn(self, pid: int, user: int, limit: int, *privilege: str) -> Answer:
        process = self.processes[pid] = Process(self.folder, pid)
        number = os.fork()
        if not number:
            try:
                signal.signal(signal.SIGCHLD, signal.SIG_IGN)
                become(self.first_user + user, limit, bool(privilege))
                serve(self.folder, pid)
            finally:
                os._exit(1)
        process.began(number)
        process.order("")
        return process.answer()._replace(reply=f"pid {pid}")

    def fork(self, parent: Process, pid: int) -> Answer:
        child = self.processes[pid] = Process(self.folder, pid)
        parent.order("fork", self.folder, pid)
        made = parent.answer()
        child.began(int(made.reply.split()[1]))
        child.answer()
        return made._replace(reply=f"pid {pid}")

    def exit(self, pid: int) -> Answer:
        process = self.processes.pop(pid)
        process.order("exit")
        process.wait()
        process.close()
        return Answer("ok", {}, {})

    def open(self, process: Process, ino: int) -> Answer:
        """Opens the writing end of a new pipe, whose reading end stays here."""
        path = f"{self.folder}/pipe"
        os.mkfifo(path)
        os.chmod(path, 0o666)
        end = os.open(path, os.O_RDONLY | os.O_NONBLOCK)
        process.order("open", path)
        answer = process.answer()
        os.unlink(path)
        if answer.reply.startswith("fd "):
            self.pipes[ino] = end
        else:
            os.close(end)
        return answer

    def look(self) -> Dict[int, Answer]:
        """What each process has, without an event."""
        for process in self.processes.values():
            process.order("")
        return {pid: process.answer() for pid, process in self.processes.items()}

    def closed(self) -> Set[int]:
        """The plain files that were freed and are not forgotten."""
        by_end = {end: ino for ino, end in self.pipes.items()}
        ends = select.poll()
        for it in by_end:
            ends.register(it, 0)
        return {by_end[it] for it, found in ends.poll(0) if found & select.POLLHUP}

    def forget(self, freed: Set[int]):
        for ino in freed:
            os.close(self.pipes.pop(ino))

    def live_sockets(self) -> int:
        """How many sockets there are in this namespace, also those that no process has."""
        with open("/proc/self/net/unix", encoding="ascii") as it:
            return sum(1 for _ in it) - 1

    def wake_collector(self):
        """Closes a socket: Linux looks for cycles then, if any socket is in flight."""
        socket.socket(socket.AF_UNIX, socket.SOCK_DGRAM).close()

    def end(self):
        for pid in [*self.processes]:
            try:
                self.exit(pid)
            except (Stuck, OSError):
                pass


def enter_namespace():
    """Enters a network namespace of its own, with no other sockets and with as much room in the
    queues of datagram sockets as there is here, and adopts orphans."""
    libc("unshare", CLONE_NEWNET)
    with open(MAX_DGRAM_QLEN, "w", encoding="ascii") as it:
        it.write(str(MAX_MESSAGES - 1))
    libc("prctl", PR_SET_CHILD_SUBREAPER, 1, 0, 0, 0)
    resource.setrlimit(resource.RLIMIT_NOFILE, (MOST_FILES, MOST_FILES))


def release() -> Tuple[int, ...]:
    """The first two numbers of this kernel's release."""
    return tuple(int(it) for it in re.findall(r"\d+", os.uname().release)[:2])


def why_not() -> str:
    """Why walks cannot be played here, or nothing."""
    if sys.platform != "linux" or not hasattr(os, "pidfd_open"):
        return "it takes Linux with pidfd_open(2)"
    if release() < OLDEST:
        return f"Linux {os.uname().release} is older than the one that docs/PROFILE.md is of"
    if os.geteuid():
        return "it takes root, for users and a network namespace of its own"
    child = os.fork()
    if not child:
        try:
            enter_namespace()
            os.setresuid(10**9, 10**9, 10**9)
            os._exit(0)
        finally:
            os._exit(1)
    return "namespaces or users are not allowed here" if os.waitpid(child, 0)[1] else ""
