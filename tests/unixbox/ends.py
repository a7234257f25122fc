#!/usr/bin/env python3
"""Ends unixbox by signals, and says what becomes of its programs.

usage: ends.py UNIXBOX. The program starts a daemon, which makes sockets as long as it may. Each has
the same pipe open: it ends when both have ended. An error of a call is written into the pipe.
"""
import os
import select
import signal
import socket
import subprocess
import sys
import time

SECONDS = 30


def make_sockets() -> None:
    """Makes sockets for a long while, and writes what fails."""
    for _ in range(100 * SECONDS):
        try:
            for end in socket.socketpair():
                end.close()
            time.sleep(0.01)
        except OSError as error:
            os.write(1, str(error).encode())
            return


def handle(number: int, _frame: object) -> None:
    """Says that a signal came, and ends where it asks for that."""
    os.write(1, b"signal")
    if number != signal.SIGUSR1:
        os._exit(3)


def is_there(pid: int) -> bool:
    """Whether a process is not over."""
    try:
        os.kill(pid, 0)
    except ProcessLookupError:
        return False
    return True


def run_program(way: str) -> None:
    """Starts a daemon, and waits for a signal."""
    program = os.getpid()
    if way == "handles":
        signal.signal(signal.SIGTERM, handle)
        signal.signal(signal.SIGUSR1, handle)
    if os.fork() == 0:
        os.setsid()
        signal.signal(signal.SIGTERM, signal.SIG_IGN if way == "stubborn" else signal.SIG_DFL)
        if os.fork() == 0:
            while way == "over" and is_there(program):
                time.sleep(0.01)
            os.write(1, b"ready")
            make_sockets()
        os._exit(0)
    if way == "over":
        os._exit(5)
    time.sleep(SECONDS)


class Box:
    """A run of unixbox."""

    def __init__(self, unixbox: str, way: str):
        words = [unixbox, "--check", sys.executable, __file__, "run", way]
        self.process = subprocess.Popen(words, stdout=subprocess.PIPE, stderr=subprocess.PIPE)
        self.expect(b"ready")

    def expect(self, text: bytes) -> None:
        """Reads what a program says, or the end of all."""
        output = self.process.stdout
        assert output is not None
        ready, _, _ = select.select([output], [], [], SECONDS)
        said = os.read(output.fileno(), 100) if ready else b"nothing"
        if said != text:
            sys.exit(f"ends.py: the programs say {said!r}, not {text!r}")

    def ends(self, what: str, status: int) -> None:
        """All programs end, and unixbox with this status."""
        self.expect(b"")
        _, said = self.process.communicate(timeout=SECONDS)
        found = self.process.returncode
        if found != status or (status > 0) != (b" 0 files left" in said):
            sys.exit(f"ends.py: {what}: status {found}\n{said.decode()}")
        print(f"{what}: all end, with status {status}", flush=True)


def guard_of(pid: int) -> int:
    """Returns the child of unixbox."""
    with open(f"/proc/{pid}/task/{pid}/children", encoding="ascii") as file:
        return int(file.read())


def main(unixbox: str) -> None:
    for number in signal.SIGTERM, signal.SIGHUP, signal.SIGINT:
        signal.signal(number, signal.SIG_DFL)  # nohup(1) and a shell's & have them ignored.
        box = Box(unixbox, "simple")
        box.process.send_signal(number)
        box.ends(number.name, 128 + number)
    box = Box(unixbox, "handles")
    box.process.send_signal(signal.SIGUSR1)
    box.expect(b"signal")
    box.process.send_signal(signal.SIGTERM)
    box.expect(b"signal")
    box.ends("SIGTERM to a program that handles it", 3)
    box = Box(unixbox, "stubborn")
    box.process.send_signal(signal.SIGTERM)
    box.ends("SIGTERM to a daemon that ignores it", 128 + signal.SIGTERM)
    box = Box(unixbox, "over")
    box.process.send_signal(signal.SIGTERM)
    box.ends("SIGTERM to a daemon alone", 128 + signal.SIGTERM)
    box = Box(unixbox, "stubborn")
    box.process.kill()
    box.ends("SIGKILL", -signal.SIGKILL)
    box = Box(unixbox, "stubborn")
    os.kill(guard_of(box.process.pid), signal.SIGKILL)
    box.ends("SIGKILL to the guard", 128 + signal.SIGKILL)


if __name__ == "__main__":
    if sys.argv[1] == "run":
        run_program(sys.argv[2])
    else:
        main(sys.argv[1])
