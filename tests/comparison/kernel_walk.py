"""A script that this kernel's processes and the plain engine play, for kernel_walks.py."""
import os
import shutil
import tempfile
import time
from collections import Counter
from select import POLLHUP, POLLIN, POLLOUT
from typing import Callable, Dict, Iterator, List, NamedTuple

from kernel_differences import GONE_TARGET, Look, Scene, allowed, avoided, told_otherwise
from kernel_processes import Answer, Kernel, Ready, Stuck
from plain_engine import Engine, Event, File

# A script for an engine: the next event may depend on the engine and on the replies so far.
Script = Callable[[Engine], Iterator[Event]]
# How often, and every how many seconds, it is asked whether Linux's collector is done; and how
# often it is woken meanwhile.
LOOKS, BETWEEN, WAKES = 400, 0.005, 16
# Linux reports a reset once; the layer never does.
RESET = "ECONNRESET"


class Played(NamedTuple):
    """An event with the plain engine's reply."""

    event: Event
    reply: str


class Outcome(NamedTuple):
    """What came of a walk."""

    played: List[Played]
    # The first difference, or nothing.
    fault: str
    # Whether the walk ended where Linux keeps garbage.
    is_missed: bool
    # How often each row of the profile was met.
    rows: Counter
    # How many events left garbage, and of how many sockets.
    garbage: Counter


class Fault(Exception):
    """The kernel and the plain engine differ."""


class Missed(Exception):
    """Linux keeps what nothing reaches."""


class Walk:
    """A script as it is played on both sides."""

    def __init__(self, kernel: Kernel):
        self.engine, self.kernel = Engine(), kernel
        self.rows: Counter = Counter()
        self.garbage: Counter = Counter()
        self.played: List[Played] = []
        # The kernel's inode of each live file that a descriptor has shown, by its number here.
        self.inodes: Dict[int, int] = {}

    def step(self, event: Event) -> str:
        """Plays an event, unless it is left out, and returns the plain engine's reply."""
        scene = Scene(self.engine, event)
        row = avoided(scene)
        if row:
            self.rows[row] += 1
            return "EINVAL"
        pid, ino = self.engine.next_pid, self.engine.next_ino
        reply = self.engine.step(event)
        self.played.append(Played(event, reply))
        if event.verb == "pass" or reply == "ESRCH":
            return reply
        answer = self.answer(event, pid, ino)
        self.compare_replies(scene, reply, answer.reply)
        self.follow(scene, answer.reply)
        self.compare_tables(event.pid or pid, answer)
        self.collect()
        self.compare_files()
        self.compare_ready()
        return reply

    def answer(self, event: Event, pid: int, ino: int) -> Answer:
        """The kernel's answer. A reset is told once, and the event is done again."""
        answer = self.kernel.do(event, pid, ino)
        if answer.reply == RESET:
            self.rows[RESET] += 1
            answer = self.kernel.do(event, pid, ino)
        return answer

    def compare_replies(self, scene: Scene, here: str, there: str):
        if here == there:
            return
        row = allowed(scene, here, there)
        if not row:
            raise Fault(f"the layer answers {here!r}, the kernel {there!r}")
        self.rows[row] += 1

    def follow(self, scene: Scene, there: str):
        """Linux answers a send to a socket that is gone once. Then the sender is as after an
        unconnect."""
        if scene.verb == "send" and there == "ECONNREFUSED":
            self.rows[GONE_TARGET] += 1
            self.engine.step(Event("unconnect", scene.event.pid, (scene.value(0),)))

    def compare_tables(self, pid: int, answer: Answer):
        """Each open descriptor refers to the same file on both sides."""
        numbers = {fd: ino for (owner, fd), ino in self.engine.numbers.items() if owner == pid}
        if numbers.keys() != answer.inodes.keys():
            raise Fault(f"open are {sorted(numbers)}, on the kernel {sorted(answer.inodes)}")
        for fd, ino in numbers.items():
            if self.inodes.setdefault(ino, answer.inodes[fd]) != answer.inodes[fd]:
                raise Fault(f"descriptor {fd} refers to another file than on the kernel")
        live = self.live()
        self.inodes = {ino: it for ino, it in self.inodes.items() if ino in live}
        if len({*self.inodes.values()}) < len(self.inodes):
            raise Fault("two files are one on the kernel")

    def collect(self):
        """Makes a pass, where there is garbage, and waits for the kernel's."""
        if not self.engine.garbage():
            return
        reclaimed = int(self.engine.step(Event("pass")).split()[3])
        self.garbage.update(events=1, sockets=reclaimed)
        for look in range(LOOKS):
            if look % (LOOKS // WAKES) == 0:
                self.kernel.wake_collector()
            if self.is_collected():
                return
            time.sleep(BETWEEN)
        raise Missed

    def is_collected(self) -> bool:
        """Whether the kernel has no plain file but those that are live, and no socket more."""
        open_ends = self.kernel.pipes.keys() - self.kernel.closed()
        return open_ends <= self.live().keys() and self.kernel.live_sockets() <= self.sockets()

    def live(self) -> Dict[int, File]:
        return {it.ino: it for it in self.engine.files}

    def sockets(self) -> int:
        return sum(it.kind != "plain" for it in self.engine.files)

    def compare_files(self):
        """The same plain files are live, and as many sockets."""
        freed, wanted = self.kernel.closed(), self.kernel.pipes.keys() - self.live().keys()
        if freed != wanted:
            raise Fault(f"freed are {sorted(wanted)}, on the kernel {sorted(freed)}")
        self.kernel.forget(freed)
        sockets = self.kernel.live_sockets()
        if sockets != self.sockets():
            raise Fault(f"{self.sockets()} sockets are live, on the kernel {sockets}")

    def compare_ready(self):
        """poll(2) tells the same of each socket that a process has, but of one that is no datagram
        socket and was never connected."""
        looks, files = self.kernel.look(), self.live()
        for (pid, fd), ino in self.engine.numbers.items():
            if files[ino].is_datagram or files[ino].state not in ("-", "idle"):
                self.compare_socket(fd, files[ino], looks[pid].ready)

    def compare_socket(self, fd: int, file: File, ready: Ready):
        seen, told = ready.get(fd, 0), self.engine.ready(file)
        for event, is_here in zip((POLLIN, POLLOUT, POLLHUP), told):
            if bool(seen & event) == is_here:
                continue
            row = told_otherwise(Look(self.engine, file), event, is_here)
            if not row:
                words = "readable {}, writable {}, hung up {}".format(*told)
                raise Fault(f"descriptor {fd} is {words}; poll(2) on the kernel tells {seen:#x}")
            self.rows[row] += 1


def played(script: Script, first_user: int) -> Outcome:
    """Plays a script on both sides, up to the first difference."""
    folder = tempfile.mkdtemp(prefix="kernel-walk-")
    os.chmod(folder, 0o711)
    kernel = Kernel(folder, first_user)
    walk, fault, is_missed = Walk(kernel), "", False
    events, reply = script(walk.engine), None
    try:
        while True:
            reply = walk.step(events.send(reply))
    except StopIteration:
        pass
    except Fault as error:
        fault = f"{walk.played[-1].event.line()}: {error}"
    except Missed:
        is_missed = True
    except Stuck as error:
        fault = str(error)
    kernel.end()
    shutil.rmtree(folder)
    return Outcome(walk.played, fault, is_missed, walk.rows, walk.garbage)
