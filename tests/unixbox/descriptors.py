#!/usr/bin/env python3
"""Passes descriptors between threads, processes and programs, and says what comes out.

Each check prints a line, the same natively and under unixbox. The status is 0 if all hold."""
import asyncio
import multiprocessing
import os
import select
import signal
import socket
import struct
import subprocess
import tempfile
import threading
from multiprocessing.connection import Connection
from typing import List, Tuple

WAIT = 5
READABLE, WRITABLE, HUNG_UP = select.POLLIN, select.POLLOUT, select.POLLHUP


def ends(reads: int) -> bool:
    """Closes the reading end of a pipe. Returns whether the last writing end is closed soon."""
    asked = select.select([reads], [], [], WAIT)[0]
    ended = bool(asked) and os.read(reads, 1) == b""
    os.close(reads)
    return ended


def recv_fds(sock: socket.socket, room: int, flags: int = 0) -> Tuple[bytes, List[int], int]:
    """Receives two bytes at most, and so many descriptors. Returns them, and what was cut."""
    data, cargo, cut, _ = sock.recvmsg(2, socket.CMSG_LEN(4 * room), flags)
    fds = [fd for _, _, words in cargo for fd in struct.unpack(f"{len(words) // 4}i", words)]
    return data, fds, cut


def check_peek() -> str:
    """Two peeks and a receive give three descriptors of one pipe."""
    left, right = socket.socketpair()
    reads, writes = os.pipe()
    socket.send_fds(left, [b"x"], [writes])
    os.close(writes)
    flags = socket.MSG_PEEK, socket.MSG_PEEK, 0
    fds = [recv_fds(right, 1, each)[1][0] for each in flags]
    assert len({os.fstat(fd).st_ino for fd in fds}) == 1 and len(set(fds)) == 3
    for fd in fds:
        os.close(fd)
    assert ends(reads)
    return "two peeks and a receive give three descriptors of one pipe"


def check_truncate() -> str:
    """Descriptors without room are closed, and the receiver is told."""
    left, right = socket.socketpair(socket.AF_UNIX, socket.SOCK_SEQPACKET)
    pipes = [os.pipe() for _ in range(3)]
    socket.send_fds(left, [b"four"], [writes for _, writes in pipes])
    for _, writes in pipes:
        os.close(writes)
    data, fds, cut = recv_fds(right, 1)
    assert data == b"fo" and cut == socket.MSG_TRUNC | socket.MSG_CTRUNC and len(fds) == 1
    assert ends(pipes[1][0]) and ends(pipes[2][0])
    os.close(fds[0])
    assert ends(pipes[0][0])
    return "one of three descriptors fits, and the others are closed"


def check_poll() -> str:
    """The calls that wait for readiness see what arrives, and the peer's end."""
    seen: List[Tuple[int, int, bool]] = []
    left, right = socket.socketpair()
    poller, edges = select.poll(), select.epoll()
    poller.register(right, READABLE | WRITABLE)
    edges.register(right, select.EPOLLIN | select.EPOLLET)

    def look() -> None:
        ready = poller.poll(0)[0][1]
        arrived = sum(event & select.EPOLLIN for _, event in edges.poll(0))
        seen.append((ready, arrived, bool(select.select([right], [], [], 0)[0])))

    look()
    left.send(b"x")
    look()
    look()
    left.close()
    look()
    assert right.recv(2) == b"x" and right.recv(2) == b""
    both = READABLE | WRITABLE
    assert seen[:3] == [(WRITABLE, 0, False), (both, 1, True), (both, 0, True)]
    assert seen[3][0] == both | HUNG_UP and seen[3][2]
    return "poll, select and epoll tell a message once it is there, and the end"


def check_listener() -> str:
    """A server with a name in the file system answers several clients at once."""
    got: List[bytes] = []

    async def answer(reader: asyncio.StreamReader, writer: asyncio.StreamWriter) -> None:
        writer.write((await reader.readline()).upper())
        await writer.drain()
        writer.close()

    async def ask(path: str, text: bytes) -> None:
        reader, writer = await asyncio.open_unix_connection(path)
        assert writer.get_extra_info("peername") == path
        writer.write(text)
        got.append(await reader.read())
        writer.close()

    async def serve(path: str) -> None:
        server = await asyncio.start_unix_server(answer, path)
        await asyncio.gather(*(ask(path, b"client %d\n" % i) for i in range(5)))
        server.close()
        await server.wait_closed()

    with tempfile.TemporaryDirectory() as folder:
        path = os.path.join(folder, "name")
        asyncio.run(serve(path))
        with socket.socket(socket.AF_UNIX) as late:
            assert late.connect_ex(path) != 0
    assert sorted(got) == [b"CLIENT %d\n" % i for i in range(5)]
    return "five clients are answered by name, and none after the end"


def check_broker() -> str:
    """A connection passes through two processes, which hand it on by messages of their own."""

    def hand_on(source: Connection, target: Connection) -> None:
        target.send(source.recv())
        assert source.recv() == "done"  # The last process asks this one for the descriptor.

    def write(source: Connection) -> None:
        source.recv().send("written by the last process")

    context = multiprocessing.get_context("fork")
    first, second = context.Pipe(), context.Pipe()
    mine, passed = context.Pipe()
    workers = (
        context.Process(target=hand_on, args=(first[1], second[0])),
        context.Process(target=write, args=(second[1],)),
    )
    for worker in workers:
        worker.start()
    first[0].send(passed)
    passed.close()
    text = mine.recv()
    first[0].send("done")
    for worker in workers:
        worker.join()
        assert worker.exitcode == 0
    return f"the connection that was passed on twice says: {text}"


def check_program() -> str:
    """A program inherits its input, its output, and what is marked as inheritable."""
    left, right = socket.socketpair()
    hidden, shown = socket.socketpair()
    os.set_inheritable(shown.fileno(), True)
    names = hidden.fileno(), shown.fileno()
    script = "for fd; do test -e /proc/self/fd/$fd && echo open || echo closed; done; head -c 4"
    words = ["sh", "-c", script, "sh", *map(str, names)]
    with subprocess.Popen(words, stdin=right, stdout=right, close_fds=False):
        right.close()
        left.send(b"read")
        text = b"".join(iter(lambda: left.recv(64), b""))
    return " ".join(text.decode().split())


def check_wait() -> str:
    """A receive waits for another thread, also where a signal comes between."""
    left, right = socket.socketpair()
    came: List[int] = []
    signal.signal(signal.SIGALRM, lambda number, _: came.append(number))
    signal.setitimer(signal.ITIMER_REAL, 0.1)
    sender = threading.Timer(0.3, left.send, (b"late",))
    sender.start()
    text = right.recv(8)
    sender.join()
    assert came == [signal.SIGALRM]
    return f"the receive waits beyond a signal: {text.decode()}"


def check_cycle() -> str:
    """Two sockets that lie in each other's queues are freed, with the pipe beside them."""
    first, second = socket.socketpair(), socket.socketpair()
    reads, writes = os.pipe()
    socket.send_fds(first[1], [b"x"], [second[0].fileno(), writes])
    socket.send_fds(second[1], [b"x"], [first[0].fileno()])
    os.close(writes)
    for each in (*first, *second):
        each.close()
    assert ends(reads)
    return "two sockets in each other's queues are freed"


if __name__ == "__main__":
    for name, check in list(globals().items()):
        if name.startswith("check_"):
            print(f"{name[6:]}: {check()}", flush=True)
