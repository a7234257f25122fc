"""Events that belong together, for tools/walks: each is drawn from the reply to the one before. Other events come
between them, so that any of them may be refused.
"""
from plain_engine import Event

# Names; one is as long as a name may be. Those behind cannot be bound.
NAMES = ("a", "b", "srv", "Z-0._z", "x" * 107)
NO_NAMES = ("@", "x" * 108)
# Names of exchanges, some of which are others' too.
BOXES = ("a", "b", "c", "d", "srv", "box", "m.1", "m.2")


def is_refusal(reply: str) -> bool:
    return reply.isupper()


class Meeting:
    """A socket that listens, others that connect to it, and what becomes of them, a step at a time."""

    # What may come after a step that was done, and after one that was refused: a begin where nothing stands.
    DONE = {
        "begin": "bind",
        "bind": "listen",
        "listen": "join",
        "join": "name connect connect",
        "name": "connect",
        "connect": "greet",
        "greet": "join accept leave",
        "accept": "join leave",
        "leave": "part begin",
    }
    NOT_DONE = {"begin": "begin", "bind": "leave", "listen": "leave", "join": "begin", "connect": "join accept leave"}
    REFUSED = {**DONE, **NOT_DONE}

    def __init__(self, source: "Source"):
        self.source, self.stage = source, "begin"
        self.kind, self.name = "stream", NAMES[0]
        # Who listens and who connects, and at which numbers.
        self.host, self.listener, self.guest, self.client = 0, 0, 0, 0

    def event(self) -> Event:
        """The next step. The host makes a socket, binds it and listens; the guest, who often is the host, makes one,
        may bind it, connects, and sends what it has at the listener's number; the host accepts, or closes the listener;
        and the guest closes the socket that connected."""
        source, stage = self.source, self.stage
        if stage == "begin":
            self.host, self.listener, self.kind, self.name = source.pid(), 0, source.socket_type(), source.name()
        elif stage == "join":
            self.guest, self.client = source.pid() if source.is_rare(2) else self.host, 0
            self.kind = source.socket_type() if source.is_rare(6) else self.kind
        steps = {
            "begin": lambda: Event("socket", self.host, (self.kind,)),
            "bind": lambda: Event("bind", self.host, (self.listener, self.name)),
            "listen": lambda: Event("listen", self.host, (self.listener, source.backlog())),
            "join": lambda: Event("socket", self.guest, (self.kind,)),
            "name": lambda: Event("bind", self.guest, (self.client, source.name())),
            "connect": lambda: Event("connect", self.guest, (self.client, self.name)),
            "greet": lambda: Event("send", self.guest, (self.client, b"a", self.listener)),
            "accept": lambda: Event("accept", self.host, (self.listener,)),
            "leave": lambda: Event("close", self.host, (self.listener,)),
            "part": lambda: Event("close", self.guest, (self.client,)),
        }
        return steps[stage]()

    def go_on(self, reply: str):
        """The last step had this reply."""
        if self.stage == "begin" and reply.startswith("fd "):
            self.listener = int(reply[3:])
        elif self.stage == "join" and reply.startswith("fd "):
            self.client = int(reply[3:])
        after = self.REFUSED if is_refusal(reply) else self.DONE
        self.stage = self.source.random.choice(after.get(self.stage, "begin").split())


class ShutMeeting(Meeting):
    """A meeting where the guest may shut its socket before it connects, and the host the listener; and where the host
    sends to the guest."""

    DONE = {
        **Meeting.DONE,
        "listen": "join join join bar",
        "bar": "join",
        "join": "name connect shut shut",
        "shut": "connect",
        "greet": "accept accept join leave",
        "accept": "answer answer answer join",
        "answer": "bar join leave",
    }
    REFUSED = {**DONE, **Meeting.NOT_DONE}

    def __init__(self, source: "Source"):
        super().__init__(source)
        self.accepted = 0

    def event(self) -> Event:
        steps = {
            "bar": lambda: Event("shutdown", self.host, (self.listener, self.source.how())),
            "shut": lambda: Event("shutdown", self.guest, (self.client, self.source.how())),
            "answer": lambda: Event("send", self.host, (self.accepted, b"b")),
        }
        return steps[self.stage]() if self.stage in steps else super().event()

    def go_on(self, reply: str):
        if self.stage == "accept" and reply.startswith("fd "):
            self.accepted = int(reply[3:])
        super().go_on(reply)


class Exchange(Meeting):
    """A datagram socket with a name, others that send to it, and what becomes of them, a step at a time."""

    DONE = {
        "begin": "bind",
        "bind": "join",
        "join": "name connect",
        "name": "connect",
        "connect": "greet",
        "greet": "greet aim aim fetch turn leave " * 5 + "join again flood",
        "flood": "flood",
        "aim": "answer answer answer greet",
        "answer": "greet fetch again again turn turn leave leave leave leave",
        "again": "greet fetch turn leave",
        "fetch": "greet answer join turn",
        "turn": "greet answer connect aim",
        "leave": "greet part part",
        "part": "begin",
    }
    REFUSED = {
        **DONE,
        "begin": "begin",
        "bind": "join leave",
        "join": "leave",
        "connect": "turn aim leave",
        "greet": "turn leave connect",
        "flood": "fetch greet leave",
        "answer": "aim greet leave",
        "fetch": "greet",
    }

    def __init__(self, source: "Source"):
        super().__init__(source)
        # The guest's name, and where the host's socket sends to.
        self.own, self.aim = NAMES[0], NAMES[0]

    def event(self) -> Event:
        """The next step. The host makes a socket and binds it; the guest, who often is the host, makes one, may bind
        it, connects to the host's, and sends what it has at its number, often; the host connects to the guest's socket
        or to its own, also again, sends it to there, receives, and closes it; and the guest closes its socket. Each
        turns to another, or to none."""
        source, stage = self.source, self.stage
        if stage == "begin":
            self.host, self.listener, self.name = source.pid(), 0, self.box()
        elif stage == "join":
            self.guest, self.client = source.pid() if source.is_rare(2) else self.host, 0
        elif stage == "name":
            self.own = self.box()
        elif stage == "aim":
            self.aim = self.own if source.is_rare(3) else self.name
        kind = source.socket_type() if source.is_rare(4) else "dgram"
        most = source.random.randint(1, 2)
        steps = {
            "begin": Event("socket", self.host, (kind,)),
            "bind": Event("bind", self.host, (self.listener, self.name)),
            "join": Event("socket", self.guest, (kind,)),
            "name": Event("bind", self.guest, (self.client, self.own)),
            "connect": Event("connect", self.guest, (self.client, self.name)),
            "again": Event("connect", self.host, (self.listener, self.aim)),
            "greet": Event("send", self.guest, (self.client, b"ab", *[self.listener] * source.is_rare(2))),
            "flood": Event("send", self.guest, (self.client, b"c")),
            "turn": self.turn(self.box()),
            "aim": Event("connect", self.host, (self.listener, self.aim)),
            "answer": Event("send", self.host, (self.listener, b"d", self.listener)),
            "fetch": Event("peek" if source.is_rare(4) else "recv", self.host, (self.listener, most, 1)),
            "leave": Event("close", self.host, (self.listener,)),
            "part": Event("close", self.guest, (self.client,)),
        }
        return steps[stage]

    def box(self) -> str:
        """A name that often is another's already."""
        return self.source.random.choice(BOXES)

    def turn(self, name: str) -> Event:
        """The socket of the host or of the guest connects to another of this name, or to none."""
        is_host, is_none = self.source.is_rare(2), self.source.is_rare(3)
        pid, fd = (self.host, self.listener) if is_host else (self.guest, self.client)
        return Event("unconnect", pid, (fd,)) if is_none else Event("connect", pid, (fd, name))
