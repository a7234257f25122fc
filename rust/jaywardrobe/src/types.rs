//! The inputs and results of the calls.
use jaywardrobe_sys as sys;
use std::fmt;
use std::net::Shutdown;

/// A process of an engine. The first pid is 1, and none is given twice.
#[derive(Clone, Copy, Debug, PartialEq, Eq, PartialOrd, Ord, Hash)]
pub struct Pid(pub u32);

/// A descriptor of a process of an engine. It is no descriptor of the program.
#[derive(Clone, Copy, Debug, PartialEq, Eq, PartialOrd, Ord, Hash)]
// The calls on slices need the layout of the number.
#[repr(transparent)]
pub struct Fd(pub u32);

/// The inode number of a file. The first is 1, and none is given twice.
#[derive(Clone, Copy, Debug, PartialEq, Eq, PartialOrd, Ord, Hash)]
pub struct Ino(pub u64);

impl fmt::Display for Pid {
    fn fmt(&self, f: &mut fmt::Formatter<'_>) -> fmt::Result {
        self.0.fmt(f)
    }
}

impl fmt::Display for Fd {
    fn fmt(&self, f: &mut fmt::Formatter<'_>) -> fmt::Result {
        self.0.fmt(f)
    }
}

impl fmt::Display for Ino {
    fn fmt(&self, f: &mut fmt::Formatter<'_>) -> fmt::Result {
        self.0.fmt(f)
    }
}

/// The type of a socket.
#[derive(Clone, Copy, Debug, PartialEq, Eq, Hash)]
#[non_exhaustive]
pub enum SockType {
    /// SOCK_STREAM: bytes in order, with no borders between messages.
    Stream,
    /// SOCK_SEQPACKET: keeps the borders between messages.
    Seqpacket,
    /// SOCK_DGRAM: sends to a target, and keeps the borders between messages.
    Dgram,
}

impl SockType {
    /// Returns the number that the library has for the type.
    pub(crate) fn code(self) -> u32 {
        match self {
            SockType::Stream => sys::JW_STREAM,
            SockType::Seqpacket => sys::JW_SEQPACKET,
            SockType::Dgram => sys::JW_DGRAM,
        }
    }
}

/// Returns the number that the library has for the ends of a socket.
pub(crate) fn code_of_ends(how: Shutdown) -> u32 {
    match how {
        Shutdown::Read => sys::JW_SHUT_RD,
        Shutdown::Write => sys::JW_SHUT_WR,
        Shutdown::Both => sys::JW_SHUT_RDWR,
    }
}

/// The state of a socket.
#[derive(Clone, Copy, Debug, PartialEq, Eq, Hash)]
pub enum State {
    /// The socket was never connected, and does not listen.
    Idle,
    /// The socket waits for connections.
    Listening,
    /// The socket is connected to this live peer. A datagram socket sends to this target, which may
    /// be freed.
    Connected(Ino),
    /// The socket was connected, and the peer is gone.
    HungUp,
}

/// A live file.
#[derive(Clone, Copy, Debug, PartialEq, Eq, Hash)]
pub enum File {
    /// A plain file.
    Plain,
    /// A socket.
    Socket {
        /// The type of the socket.
        kind: SockType,
        /// The state of the socket.
        state: State,
        /// How many messages it can receive.
        messages: u64,
        /// How many connections wait to be accepted at it.
        embryos: u64,
    },
}

impl File {
    /// Returns the file that the library describes, or `None` where it is not live.
    pub(crate) fn from_written(it: sys::jw_file) -> Option<File> {
        let kind = match it.kind {
            sys::JW_PLAIN => return Some(File::Plain),
            sys::JW_STREAM => SockType::Stream,
            sys::JW_SEQPACKET => SockType::Seqpacket,
            sys::JW_DGRAM => SockType::Dgram,
            _ => return None,
        };
        let state = match it.state {
            sys::JW_LISTENING => State::Listening,
            sys::JW_CONNECTED => State::Connected(Ino(it.peer)),
            sys::JW_HUNG_UP => State::HungUp,
            _ => State::Idle,
        };
        Some(File::Socket {
            kind,
            state,
            messages: it.messages,
            embryos: it.embryos,
        })
    }
}

/// The outcome of a receive or a peek. Bytes and descriptors fill the caller's slices from the front.
#[derive(Clone, Copy, Debug, PartialEq, Eq, Hash)]
pub struct Received {
    /// How many bytes were written.
    pub bytes: usize,
    /// How many descriptors were installed.
    pub fds: usize,
    /// Whether bytes of the packet did not fit (recvmsg(2), MSG_TRUNC).
    pub trunc: bool,
    /// Whether descriptors did not fit, and were not installed (recvmsg(2), MSG_CTRUNC).
    pub ctrunc: bool,
}

/// A pass of the collector that is over.
#[derive(Clone, Copy, Debug, PartialEq, Eq, Hash)]
pub struct Finished {
    /// The number of the pass, from 1 on.
    pub pass: u64,
    /// How many sockets were garbage when it began.
    pub reclaimed: u64,
}

impl From<sys::jw_finished> for Finished {
    fn from(it: sys::jw_finished) -> Finished {
        Finished {
            pass: it.pass,
            reclaimed: it.reclaimed,
        }
    }
}

/// The readiness of a descriptor.
#[derive(Clone, Copy, Debug, PartialEq, Eq, Hash)]
pub struct Ready {
    /// Whether a receive of a byte, or an accept, has something to give, or the end to tell
    /// (POLLIN).
    pub readable: bool,
    /// Whether a send of a byte without descriptors has room (POLLOUT), or, of a datagram socket,
    /// is refused for another reason.
    pub writable: bool,
    /// Whether the peer is gone, or both ends of the socket are closed (POLLHUP).
    pub hung_up: bool,
}

/// The counts of a check.
#[derive(Clone, Copy, Debug, PartialEq, Eq, Hash)]
pub struct Checked {
    /// How many files are live.
    pub live: u64,
    /// How many of them no chain of queues and backlogs reaches from any table.
    pub garbage: u64,
}
