"""Where the layer differs from Linux on purpose, by rows of docs/PROFILE.md, for kernel_walks.py.

An event that would change more there than here is left out of a walk (`AVOIDS`). Where both refuse
an event, their errors may differ (`ALLOWS`). And poll(2) may tell something else of a socket
(`POLLS`).
"""
from select import POLLIN, POLLOUT
from typing import Callable, Dict, List, NamedTuple, Optional, Tuple

from plain_engine import MAX_BACKLOG, MAX_BYTES, MAX_MESSAGES, MAX_NOFILE, NAME
from plain_engine import Engine, Event, File, Process, Refused, Value

# Far below what a queue of Linux has room for, so that 64 such messages fit.
FEW_BYTES = 1024
# The row of a send to a socket that is gone: Linux changes the sender then.
GONE_TARGET = "send of a datagram socket whose target is gone"


class Scene:
    """An event, with the process and the file that it finds."""

    def __init__(self, engine: Engine, event: Event):
        self.engine, self.event, self.verb = engine, event, event.verb
        self.process: Optional[Process] = None
        # The file behind the event's first number.
        self.file: Optional[File] = None
        try:
            self.process = engine.process(event.pid)
            ino = engine.lookup(self.process, event.values[0] if event.values else -1)
            self.file = next(it for it in engine.files if it.ino == ino)
        except Refused:
            pass

    def value(self, at: int) -> Value:
        return self.event.values[at]

    @property
    def is_receive(self) -> bool:
        return self.verb in ("recv", "peek")

    @property
    def kind(self) -> str:
        """What the file is, or nothing where there is none."""
        return self.file.kind if self.file else ""

    @property
    def is_stream(self) -> bool:
        return self.kind == "stream"

    @property
    def is_datagram(self) -> bool:
        return self.kind == "dgram"

    @property
    def state(self) -> str:
        """The state of the socket, or nothing where there is none."""
        return "" if self.file is None or self.file.kind == "plain" else self.file.state

    def is_table_full(self) -> bool:
        try:
            self.engine.lowest_free(self.process)
        except Refused:
            return True
        return False


class Refusals(NamedTuple):
    """The errors of an event that both sides refuse."""

    scene: Scene
    here: str
    there: str

    def are(self, verb: str, here: str, *there: str) -> bool:
        return self.scene.verb == verb and self.here == here and self.there in there


class Look(NamedTuple):
    """A socket of which poll(2) tells."""

    engine: Engine
    file: File

    @property
    def target(self) -> Optional[File]:
        """The live socket that it sends to."""
        return next((it for it in self.engine.files if it.ino == self.file.peer), None)

    @property
    def is_full(self) -> bool:
        """Whether as many messages as there may be here wait at that one."""
        return self.target is not None and len(self.engine.queued(self.target.ino)) >= MAX_MESSAGES

    @property
    def has_own_room(self) -> bool:
        """Whether Linux counts the sender's buffer alone: the target takes messages of it alone."""
        is_of_two = self.target in (None, self.file) or self.target.peer == self.file.ino
        return is_of_two or not self.file.is_datagram


AVOIDS: Dict[str, Callable[[Scene], bool]] = {}
ALLOWS: Dict[str, Callable[[Refusals], bool]] = {}
# By row the event of poll(2), whether it is told here, and of which sockets it is told otherwise.
POLLS: Dict[str, Tuple[int, bool, Callable[[Look], bool]]] = {}


def avoids(row: str):
    """Has events that fit left out, by this row."""
    return lambda fits: AVOIDS.setdefault(row, fits)


def allows(row: str):
    """Has errors that fit allowed, by this row."""
    return lambda fits: ALLOWS.setdefault(row, fits)


def polls(event: int, row: str, is_here: bool = False):
    """Has this event told there alone, or here alone, of sockets that fit, by this row."""
    return lambda fits: POLLS.setdefault(row, (event, is_here, fits))


@avoids("send without bytes")
def sends_nothing(it: Scene) -> bool:
    return it.verb == "send" and not it.value(1)


@avoids("receive with room for no byte, or for over 65,536")
def receives_too_much(it: Scene) -> bool:
    return it.is_receive and not 1 <= it.value(1) <= MAX_BYTES


@avoids("message over 65,536 bytes")
def sends_too_much(it: Scene) -> bool:
    return it.verb == "send" and len(it.value(1)) > MAX_BYTES


@avoids("stream's message over 36,544 bytes")
def sends_much(it: Scene) -> bool:
    return it.verb == "send" and len(it.value(1)) > FEW_BYTES


@avoids("messages in a queue")
def sends_to_full_queue(it: Scene) -> bool:
    """Datagrams of others than the target sends to are as few there, by `enter_namespace`."""
    if it.verb != "send" or not it.state:
        return False
    look = Look(it.engine, it.file)
    return look.is_full and look.has_own_room


@avoids("peek at a stream without room for a byte of the first message with descriptors")
def peeks_before_descriptors(it: Scene) -> bool:
    if it.verb != "peek" or not it.is_stream:
        return False
    queue = it.engine.queued(it.file.ino)
    first = next((at for at, message in enumerate(queue) if message.attached), 0)
    return first > 0 and sum(len(message.data) for message in queue[:first]) >= it.value(1)


@avoids("raised limit")
def raises_limit(it: Scene) -> bool:
    limits = {"limit": 0, "spawn": 1}
    return it.verb in limits and it.value(limits[it.verb]) > MAX_NOFILE


@avoids("names")
def uses_odd_name(it: Scene) -> bool:
    """A connect to a name of such bytes finds nobody on both sides, if an address has room for it."""
    if it.verb == "connect":
        return len(it.value(1)) > 107
    return it.verb == "bind" and not NAME.fullmatch(it.value(1))


@avoids("bind or connect of a stream to a seqpacket's name")
def binds_name_of_other_type(it: Scene) -> bool:
    if it.verb != "bind" or not it.state:
        return False
    owner = it.engine.named(it.value(1), it.file.is_datagram)
    return owner is not None and owner.kind != it.file.kind


@avoids("second listen; bind of a connected socket without a name")
def listens_again_or_binds_late(it: Scene) -> bool:
    if it.verb == "listen":
        return it.state == "listening"
    is_connected = it.state in ("connected", "hungup") and not it.is_datagram
    return it.verb == "bind" and is_connected and not it.file.name


@avoids("number of a listen")
def listens_to_odd_number(it: Scene) -> bool:
    is_odd = it.verb == "listen" and not 1 <= it.value(1) <= MAX_BACKLOG
    return is_odd and not it.is_datagram


@allows("receive or peek on a stream, never connected")
def receives_on_idle_stream(it: Refusals) -> bool:
    errors = it.here, it.there
    return it.scene.is_receive and it.scene.is_stream and errors == ("ENOTCONN", "EINVAL")


@allows("bind or connect of a stream to a seqpacket's name")
def connects_to_other_type(it: Refusals) -> bool:
    return it.are("connect", "EPROTOTYPE", "ECONNREFUSED")


@allows("accept without a free descriptor")
def accepts_without_descriptor(it: Refusals) -> bool:
    return it.scene.verb == "accept" and it.there == "EMFILE" and it.scene.is_table_full()


@allows("connect of a listening or connected socket")
def connects_again(it: Refusals) -> bool:
    others = "ECONNREFUSED", "EAGAIN", "EISCONN", "EINVAL"
    return it.are("connect", "EINVAL", *others) or it.are("connect", "EISCONN", *others)


@allows("send on an unconnected socket: a descriptor not open; over 253")
def sends_bad_descriptors_to_nobody(it: Refusals) -> bool:
    is_either = it.are("send", "EBADF", "ENOTCONN") or it.are("send", "EINVAL", "ENOTCONN")
    return is_either and it.scene.kind == "seqpacket"


@allows("send of a datagram with descriptors, while too many are in flight")
def counts_before_target(it: Refusals) -> bool:
    errors = "ENOTCONN", "ECONNREFUSED", "EPERM"
    return it.scene.is_datagram and any(it.are("send", error, "ETOOMANYREFS") for error in errors)


@polls(POLLIN, "poll(2): listener without input")
def has_listener_without_input(it: Look) -> bool:
    return it.file.state == "listening" and it.file.no_input


@polls(POLLIN, "poll(2): datagram socket without input")
def has_datagram_socket_without_input(it: Look) -> bool:
    return it.file.is_datagram and it.file.no_input


@polls(POLLOUT, "poll(2): idle socket; hung-up socket")
def is_hung_up(it: Look) -> bool:
    return it.file.state == "hungup"


@polls(POLLOUT, "poll(2): closed output, or peer's input")
def has_closed_end(it: Look) -> bool:
    is_closed = it.file.no_output or it.target is not None and it.target.no_input
    return it.file.state == "connected" and not it.file.is_datagram and is_closed


@polls(POLLOUT, "messages in a queue")
def has_room(it: Look) -> bool:
    return it.is_full and it.has_own_room


@polls(POLLOUT, "poll(2): datagram socket refused by a target whose queue is full", is_here=True)
def is_refused_at_full_queue(it: Look) -> bool:
    if not it.is_full or it.has_own_room:
        return False
    return it.file.no_output or it.target.no_input or it.target.peer != 0


def avoided(scene: Scene) -> Optional[str]:
    """The row by which a walk leaves this event out, if one does."""
    return next((row for row, fits in AVOIDS.items() if fits(scene)), None)


def allowed(scene: Scene, here: str, there: str) -> Optional[str]:
    """The row by which these two errors may come, if both are errors and one does."""
    if not (here.isupper() and there.isupper()):
        return None
    found = Refusals(scene, here, there)
    return next((row for row, fits in ALLOWS.items() if fits(found)), None)


def told_otherwise(look: Look, event: int, is_here: bool) -> Optional[str]:
    """The row by which poll(2) tells this event here alone, or there alone, if one does."""
    told = event, is_here
    return next((row for row, (*it, fits) in POLLS.items() if (*it,) == told and fits(look)), None)


def missing_rows(page: str) -> List[str]:
    """The rows named here that the page does not have."""
    rows = {*AVOIDS, *ALLOWS, *POLLS, GONE_TARGET}
    return sorted(row for row in rows if f"| {row} |" not in page)
