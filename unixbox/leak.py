#!/usr/bin/env python3
"""A broker that introduces two workers to each other, and leaks their sockets.

Each worker gets the other's socket and a log by a message. If both end before they receive it, the
sockets lie in each other's queues. No process can close them, nor the log.
"""
import os
import socket
import tempfile


def start_worker(connection: socket.socket) -> int:
    """Starts a worker that ends before it receives. Returns its pid."""
    pid = os.fork()
    if pid == 0:
        connection.send(b"ready")
        os._exit(1)
    return pid


def introduce(log: int) -> None:
    """Starts two workers, and tells each how to reach the other."""
    first, first_end = socket.socketpair()
    second, second_end = socket.socketpair()
    workers = [start_worker(first_end), start_worker(second_end)]
    for connection, other in ((first, second_end), (second, first_end)):
        connection.recv(16)
        socket.send_fds(connection, [b"meet"], [other.fileno(), log])
    for pid in workers:
        os.waitpid(pid, 0)
    for end in (first_end, second_end, first, second):
        end.close()


if __name__ == "__main__":
    with tempfile.TemporaryFile() as log_file:
        introduce(log_file.fileno())
    print("Nobody has these sockets open any more.")
