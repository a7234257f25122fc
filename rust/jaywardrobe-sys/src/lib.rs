// Written by tools/bindings from lib.rs.in and the sources of scm_c and af_base.
//! Declarations of the C library `libjaywardrobe.a`, as `jaywardrobe.h` has them. The crate
//! `jaywardrobe` has safe calls over these.
//!
//! Every call answers 0 or more, or the negative of one of the `JW_E` numbers. The header says what
//! a caller owes: valid pointers that do not overlap, and one call at a time on a handle.
//!
//! # Linking
//!
//! The build script takes the library from the folder that `JAYWARDROBE_LIB_DIR` names by an
//! absolute path. Without that variable it asks `pkg-config jaywardrobe`. The build script of a
//! dependent crate reads the folder in `DEP_JAYWARDROBE_LIB_DIR`.
//!
//! # Examples
//!
//! ```
//! use jaywardrobe_sys::*;
//!
//! let mut engine = JW_ENGINE_INIT;
//! // SAFETY: the handle is this program's own, and is written by the calls alone.
//! unsafe {
//!     assert_eq!(jw_engine_new(&mut engine), 0);
//!     assert_eq!(jw_spawn(&mut engine, 1000, 16, false), 1);
//!     assert_eq!(jw_close(&mut engine, 1, 5), -JW_EBADF);
//!     jw_engine_free(&mut engine);
//! }
//! ```
#![no_std]
#![allow(non_camel_case_types)]
use core::ffi::c_void;

/// A handle: no engine, or one. Only the calls write it, and it is not copied.
#[repr(C)]
#[derive(Debug)]
pub struct jw_engine {
    /// Null, or the library's.
    pub at: *mut c_void,
}

/// A handle without an engine.
pub const JW_ENGINE_INIT: jw_engine = jw_engine {
    at: core::ptr::null_mut(),
};

// Errors. The numbers are of this library alone.

/// The descriptor is not open, or the new one of a dup2(2) is not below the limit.
pub const JW_EBADF: i64 = 1;
/// The file is no socket.
pub const JW_ENOTSOCK: i64 = 2;
/// An argument is out of range, or does not fit the socket's state.
pub const JW_EINVAL: i64 = 3;
/// The table of the process is full.
pub const JW_EMFILE: i64 = 4;
/// There are too many files, or no inode number is left.
pub const JW_ENFILE: i64 = 5;
/// Not now: a queue or a backlog is full or empty, or no further process may start.
pub const JW_EAGAIN: i64 = 6;
/// The message has too many bytes.
pub const JW_EMSGSIZE: i64 = 7;
/// The user has too many descriptors in flight (unix(7)).
pub const JW_ETOOMANYREFS: i64 = 8;
/// All users together have too many descriptors in flight.
pub const JW_ENOBUFS: i64 = 9;
/// The socket was never connected.
pub const JW_ENOTCONN: i64 = 10;
/// The peer is gone, or its input or the socket's output is closed.
pub const JW_EPIPE: i64 = 11;
/// The socket is connected, or was.
pub const JW_EISCONN: i64 = 12;
/// A live socket has this name.
pub const JW_EADDRINUSE: i64 = 13;
/// No live socket of this name listens, or its input is closed.
pub const JW_ECONNREFUSED: i64 = 14;
/// The listener is of the other type.
pub const JW_EPROTOTYPE: i64 = 15;
/// No such process.
pub const JW_ESRCH: i64 = 16;
/// Memory ran out.
pub const JW_ENOMEM: i64 = 17;
/// A pass runs.
pub const JW_EBUSY: i64 = 18;
/// No pass runs.
pub const JW_EIDLE: i64 = 19;
/// The limit on descriptors is too large.
pub const JW_ERANGE: i64 = 20;
/// The datagram socket sends to another one, and takes from that one alone.
pub const JW_EPERM: i64 = 21;
/// Sockets of this type cannot do that.
pub const JW_EOPNOTSUPP: i64 = 22;
/// The handle has no engine: none was made, or it was freed.
pub const JW_ENOENGINE: i64 = 100;
/// A kept number is not its recount: proved never to be answered.
pub const JW_EDIFFERS: i64 = 101;

// Limits.

/// Processes at once.
pub const JW_MAX_PROCESSES: u32 = 1024;
/// The largest limit on descriptors (RLIMIT_NOFILE) that a process may have.
pub const JW_MAX_NOFILE: u32 = 1024;
/// Live open file descriptions.
pub const JW_MAX_FILES: u32 = 65536;
/// Messages in a queue.
pub const JW_MAX_MESSAGES: u32 = 64;
/// Bytes of a message, and of a receive's buffer.
pub const JW_MAX_BYTES: u32 = 65536;
/// Descriptors of a message, as Linux has it (unix(7), SCM_RIGHTS).
pub const JW_MAX_FD: u32 = 253;
/// Embryos in a backlog: connections that wait at a listener.
pub const JW_MAX_BACKLOG: u32 = 128;
/// Descriptors in flight, of all users together.
pub const JW_MAX_INFLIGHT: u32 = 1048576;
/// Bytes of a name.
pub const JW_MAX_NAME: u32 = 107;
/// The largest budget of a slice, in units. The smallest is 1.
pub const JW_MAX_BUDGET: u32 = 65536;

// Kinds of files. Three of them are also the types of a new socket.

/// No live file has this number.
pub const JW_NO_FILE: u32 = 0;
/// SOCK_STREAM: bytes in order, with no borders between messages.
pub const JW_STREAM: u32 = 1;
/// SOCK_SEQPACKET: connected, keeps the borders between messages.
pub const JW_SEQPACKET: u32 = 2;
/// A plain file.
pub const JW_PLAIN: u32 = 3;
/// SOCK_DGRAM: sends to a target, keeps the borders between messages.
pub const JW_DGRAM: u32 = 4;

// States of sockets.

/// Was never connected, and does not listen.
pub const JW_IDLE: u32 = 0;
/// Waits for connections.
pub const JW_LISTENING: u32 = 1;
/// Is connected to a live peer, or has a target, live or freed.
pub const JW_CONNECTED: u32 = 2;
/// Was connected; the peer is gone.
pub const JW_HUNG_UP: u32 = 3;

// Which ends of a socket are closed, as numbered in sys/socket.h.

/// SHUT_RD: its input.
pub const JW_SHUT_RD: u32 = 0;
/// SHUT_WR: its output.
pub const JW_SHUT_WR: u32 = 1;
/// SHUT_RDWR: both.
pub const JW_SHUT_RDWR: u32 = 2;

/// The descriptors of two connected sockets.
#[repr(C)]
#[derive(Clone, Copy, Debug, Default, PartialEq, Eq)]
pub struct jw_pair {
    /// The lower descriptor.
    pub first: u32,
    /// The higher descriptor.
    pub second: u32,
}

/// The outcome of a receive or a peek, beside its bytes and descriptors.
#[repr(C)]
#[derive(Clone, Copy, Debug, Default, PartialEq, Eq)]
pub struct jw_received {
    /// How many descriptors were installed.
    pub fds: usize,
    /// Whether bytes of the packet did not fit (recvmsg(2), MSG_TRUNC).
    pub trunc: bool,
    /// Whether descriptors did not fit and were not installed (recvmsg(2), MSG_CTRUNC).
    pub ctrunc: bool,
}

/// A pass of the collector that is over.
#[repr(C)]
#[derive(Clone, Copy, Debug, Default, PartialEq, Eq)]
pub struct jw_finished {
    /// The number of the pass, from 1 on.
    pub pass: u64,
    /// How many sockets were garbage when it began.
    pub reclaimed: u64,
}

/// The readiness of a descriptor.
#[repr(C)]
#[derive(Clone, Copy, Debug, Default, PartialEq, Eq)]
pub struct jw_ready {
    /// Whether a receive of a byte, or an accept, has something to give, or the end to tell
    /// (POLLIN).
    pub readable: bool,
    /// Whether a send of a byte without descriptors has room (POLLOUT).
    pub writable: bool,
    /// Whether the peer is gone, or both ends of the socket are closed (POLLHUP).
    pub hung_up: bool,
}

/// A file. All fields but the kind are 0 where it is no socket.
#[repr(C)]
#[derive(Clone, Copy, Debug, Default, PartialEq, Eq)]
pub struct jw_file {
    /// The kind of the file (enum jw_kind).
    pub kind: u32,
    /// The state of the socket (enum jw_state).
    pub state: u32,
    /// The inode number of the peer of a connected socket, or of the target, live or freed, of a
    /// datagram socket; else 0.
    pub peer: u64,
    /// How many messages the socket can receive.
    pub messages: u64,
    /// How many connections wait to be accepted at the listener.
    pub embryos: u64,
}

/// The counts of a check.
#[repr(C)]
#[derive(Clone, Copy, Debug, Default, PartialEq, Eq)]
pub struct jw_checked {
    /// How many files are live.
    pub live: u64,
    /// How many of them no chain of queues and backlogs reaches from any table.
    pub garbage: u64,
}

unsafe extern "C" {
    /// Makes an engine to which nothing has happened. An engine that was in the handle is freed,
    /// also where the new one is refused. Answers 0.
    ///
    /// Errors: JW_ENOMEM; the handle has no engine then.
    pub fn jw_engine_new(engine: *mut jw_engine) -> i64;
    /// Frees the engine, if there is one. The handle has no engine then.
    pub fn jw_engine_free(engine: *mut jw_engine);
    /// Answers the version of the library that the program runs with, as JW_VERSION has that of the
    /// header: the major number times 1000000, the minor number times 1000, and the patch. It needs
    /// no engine.
    pub fn jw_version() -> i64;
    /// Starts a process of this user, as after fork(2) and setuid(2), with an empty table and a
    /// limit on its descriptors (RLIMIT_NOFILE, getrlimit(2)). A privileged process is not held to
    /// its user's share of descriptors in flight (unix(7), CAP_SYS_RESOURCE). Answers its pid.
    ///
    /// Errors: JW_ERANGE, JW_EAGAIN, JW_ENOMEM.
    pub fn jw_spawn(engine: *mut jw_engine, uid: u32, nofile: u32, privileged: bool) -> i64;
    /// Opens a plain file (open(2)). Answers its descriptor, the lowest that is free.
    ///
    /// Errors: JW_ESRCH, JW_EMFILE, JW_ENFILE, JW_ENOMEM.
    pub fn jw_open(engine: *mut jw_engine, pid: u32) -> i64;
    /// Duplicates a descriptor (dup(2)). Answers the new descriptor, the lowest that is free. Needs
    /// no memory where a higher one is open.
    ///
    /// Errors: JW_ESRCH, JW_EBADF, JW_EMFILE, JW_ENOMEM.
    pub fn jw_dup(engine: *mut jw_engine, pid: u32, fd: u32) -> i64;
    /// Duplicates a descriptor at a given number, in place of what that number had (dup2(2)).
    /// Answers that number. Needs no memory where it or a higher one is open: so one such call
    /// reserves room for all below.
    ///
    /// Errors: JW_ESRCH, JW_EBADF, JW_ENOMEM.
    pub fn jw_dup2(engine: *mut jw_engine, pid: u32, from: u32, to: u32) -> i64;
    /// Closes a descriptor (close(2)). Answers 0.
    ///
    /// Errors: JW_ESRCH, JW_EBADF.
    pub fn jw_close(engine: *mut jw_engine, pid: u32, fd: u32) -> i64;
    /// Makes a child of the process, with a copy of its table (fork(2)). Answers the child's pid.
    ///
    /// Errors: JW_ESRCH, JW_EAGAIN, JW_ENOMEM.
    pub fn jw_fork(engine: *mut jw_engine, pid: u32) -> i64;
    /// Changes the limit on the process's descriptors, to a lower or a higher one (setrlimit(2),
    /// RLIMIT_NOFILE). There is no hard limit. Open descriptors stay open, also at or above the
    /// limit. Answers 0.
    ///
    /// Errors: JW_ESRCH, JW_ERANGE.
    pub fn jw_limit(engine: *mut jw_engine, pid: u32, nofile: u32) -> i64;
    /// Ends the process and closes its descriptors (_exit(2)). Answers 0.
    ///
    /// Errors: JW_ESRCH.
    pub fn jw_exit(engine: *mut jw_engine, pid: u32) -> i64;
    /// Makes two connected sockets of type JW_STREAM, JW_SEQPACKET or JW_DGRAM (socketpair(2)), and
    /// writes their descriptors. Answers 0.
    ///
    /// Errors: JW_EINVAL for another type, before all else; JW_ESRCH, JW_EMFILE, JW_ENFILE,
    /// JW_ENOMEM.
    pub fn jw_pair(engine: *mut jw_engine, pid: u32, kind: u32, out: *mut jw_pair) -> i64;
    /// Makes a socket of type JW_STREAM, JW_SEQPACKET or JW_DGRAM (socket(2)). Answers its
    /// descriptor.
    ///
    /// Errors: JW_EINVAL for another type, before all else; JW_ESRCH, JW_EMFILE, JW_ENFILE,
    /// JW_ENOMEM.
    pub fn jw_socket(engine: *mut jw_engine, pid: u32, kind: u32) -> i64;
    /// Gives a socket an abstract name (bind(2), unix(7)): 1 to 107 letters, digits, '-', '.' and
    /// '_'. Answers 0.
    ///
    /// Errors: JW_ESRCH, JW_EBADF, JW_ENOTSOCK, JW_EINVAL, JW_EADDRINUSE, JW_ENOMEM.
    pub fn jw_bind(engine: *mut jw_engine, pid: u32, fd: u32, name: *const u8, len: usize) -> i64;
    /// Lets a socket with a name wait for connections, with room for 1 to 128 (listen(2)). Answers
    /// 0.
    ///
    /// Errors: JW_ESRCH, JW_EBADF, JW_ENOTSOCK, JW_EOPNOTSUPP for a datagram socket, JW_EINVAL,
    /// JW_ENOMEM.
    pub fn jw_listen(engine: *mut jw_engine, pid: u32, fd: u32, backlog: u32) -> i64;
    /// Closes an end of a socket, or both (shutdown(2)): its input for JW_SHUT_RD, its output for
    /// JW_SHUT_WR, both for JW_SHUT_RDWR; and with them the peer's output or input, but not a
    /// target's. What waits can still be received. An end is never opened again. Answers 0.
    ///
    /// Errors: JW_EINVAL for another number, before all else; JW_ESRCH, JW_EBADF, JW_ENOTSOCK.
    pub fn jw_shutdown(engine: *mut jw_engine, pid: u32, fd: u32, how: u32) -> i64;
    /// Leaves a datagram socket without a target (connect(2) to AF_UNSPEC). If it had one, what
    /// waits there is lost. Answers 0.
    ///
    /// Errors: JW_ESRCH, JW_EBADF, JW_ENOTSOCK, JW_EINVAL for a socket of another type.
    pub fn jw_unconnect(engine: *mut jw_engine, pid: u32, fd: u32) -> i64;
    /// Connects a socket to the listener of this name, without waiting (connect(2)). The socket is
    /// connected immediately, and the other end waits to be accepted. Answers 0.
    ///
    /// A datagram socket sends to the one of this name from now on, its target. If it sent to
    /// another, what waits at it is lost.
    ///
    /// Errors: JW_ESRCH, JW_EBADF, JW_ENOTSOCK, JW_EINVAL, JW_EISCONN; for a datagram socket
    /// JW_ECONNREFUSED, and JW_EPERM where the target sends to another; for others JW_ECONNREFUSED,
    /// JW_EPROTOTYPE, JW_EAGAIN, JW_ENFILE, JW_ENOMEM.
    pub fn jw_connect(
        engine: *mut jw_engine,
        pid: u32,
        fd: u32,
        name: *const u8,
        len: usize,
    ) -> i64;
    /// Accepts the connection that waits longest at a listener (accept(2)). Answers the new
    /// socket's descriptor, the lowest that is free. Needs no memory where a higher one is open.
    ///
    /// Errors: JW_ESRCH, JW_EBADF, JW_ENOTSOCK, JW_EOPNOTSUPP for a datagram socket, JW_EINVAL,
    /// JW_EAGAIN, JW_EMFILE, JW_ENOMEM.
    pub fn jw_accept(engine: *mut jw_engine, pid: u32, fd: u32) -> i64;
    /// Sends 1 to 65536 bytes, and with them the files of at most 253 descriptors (sendmsg(2) with
    /// SCM_RIGHTS; unix(7), cmsg(3)). The bytes are copied once. Memory is requested after all
    /// other tests. Answers how many bytes were sent, which is all of them.
    ///
    /// Errors: JW_ESRCH, JW_EBADF, JW_ENOTSOCK, JW_EINVAL, JW_EMSGSIZE, JW_EBADF for one of fds,
    /// JW_ENOTCONN, JW_EPIPE where the peer is gone or the socket's output is closed; for a
    /// datagram socket JW_ENOTCONN without a target, JW_ECONNREFUSED where it is gone, JW_EPERM
    /// where it sends to another; JW_ETOOMANYREFS, JW_ENOBUFS, JW_EPIPE where the peer's input is
    /// closed, JW_EAGAIN, JW_ENOMEM.
    pub fn jw_send(
        engine: *mut jw_engine,
        pid: u32,
        fd: u32,
        bytes: *const u8,
        len: usize,
        fds: *const u32,
        nfds: usize,
    ) -> i64;
    /// Receives at most len bytes, 1 or more, and at most nfds descriptors (recvmsg(2) with
    /// SCM_RIGHTS). More room than 65536 bytes is taken for 65536. Writes the bytes and the new
    /// descriptors, and to out how many descriptors there are and what did not fit. Answers how
    /// many bytes it wrote, or 0 where nothing is left, and the peer is gone or the socket's input
    /// closed.
    ///
    /// A packet's bytes beyond len are dropped; a stream's wait for the next receive. Descriptors
    /// beyond nfds or beyond the free ones are closed. Needs no memory for a packet that brings no
    /// descriptors, or up to 4 where the highest below the process's limit is open.
    ///
    /// Errors: JW_ESRCH, JW_EBADF, JW_ENOTSOCK, JW_EINVAL, JW_ENOTCONN, JW_EAGAIN, JW_ENOMEM.
    pub fn jw_recv(
        engine: *mut jw_engine,
        pid: u32,
        fd: u32,
        bytes: *mut u8,
        len: usize,
        fds: *mut u32,
        nfds: usize,
        out: *mut jw_received,
    ) -> i64;
    /// Writes and answers what jw_recv would, but takes nothing from the queue (recvmsg(2),
    /// MSG_PEEK).
    ///
    /// The descriptors are installed and also stay in the queue, where they are still charged. A
    /// second peek installs them again. Bytes and descriptors that do not fit stay in the queue
    /// too.
    ///
    /// Errors: JW_ESRCH, JW_EBADF, JW_ENOTSOCK, JW_EINVAL, JW_ENOTCONN, JW_EAGAIN, JW_ENOMEM.
    pub fn jw_peek(
        engine: *mut jw_engine,
        pid: u32,
        fd: u32,
        bytes: *mut u8,
        len: usize,
        fds: *mut u32,
        nfds: usize,
        out: *mut jw_received,
    ) -> i64;
    /// Begins a pass of the collector, and writes its number. It costs the same with few files and
    /// with many, except once in 2^32 passes. Answers 0.
    ///
    /// Errors: JW_EBUSY.
    pub fn jw_begin(engine: *mut jw_engine, pass: *mut u64) -> i64;
    /// Continues the pass by at most budget units, 1 to 65536; a unit visits, scans or sweeps one
    /// file. Answers 1 while the pass runs. Answers 0 when it is over, and writes what jw_pass
    /// writes.
    ///
    /// Errors: JW_EIDLE, JW_EINVAL.
    pub fn jw_slice(engine: *mut jw_engine, budget: u32, out: *mut jw_finished) -> i64;
    /// Does a whole pass at once: reclaims what no process can reach. Writes the number of the
    /// pass, and how many sockets were garbage. Answers 0.
    ///
    /// Errors: JW_EBUSY.
    pub fn jw_pass(engine: *mut jw_engine, out: *mut jw_finished) -> i64;
    /// Writes the inode number of the file that a descriptor refers to, or 0 where the descriptor
    /// is not open or there is no such process. Answers 0.
    pub fn jw_ino(engine: *mut jw_engine, pid: u32, fd: u32, ino: *mut u64) -> i64;
    /// Answers the lowest open descriptor of a process that is not below from, and writes the inode
    /// number of its file. A walk over a table asks again from the next number.
    ///
    /// Errors: JW_EBADF; no descriptor is open from there on, or there is no such process.
    pub fn jw_next_fd(engine: *mut jw_engine, pid: u32, from: u32, ino: *mut u64) -> i64;
    /// Writes what a descriptor is ready for (poll(2)): what its next receive, accept or send
    /// finds. So an idle or hung-up socket is not writable, unlike in Linux. A datagram socket is
    /// writable where a send would not be JW_EAGAIN. A plain file is always readable and writable.
    /// Answers 0.
    ///
    /// Errors: JW_ESRCH, JW_EBADF.
    pub fn jw_poll(engine: *mut jw_engine, pid: u32, fd: u32, out: *mut jw_ready) -> i64;
    /// Writes how many places in tables, queues and backlogs hold the file: its reference count.
    /// Writes 0 for an unknown file. Answers 0.
    pub fn jw_refs(engine: *mut jw_engine, ino: u64, count: *mut u64) -> i64;
    /// Writes how often the file is in flight, repeats included (unix(7), SCM_RIGHTS). Writes 0 for
    /// an unknown file. Answers 0.
    pub fn jw_inflight(engine: *mut jw_engine, ino: u64, count: *mut u64) -> i64;
    /// Writes how many descriptors in flight are charged to the user (unix(7), ETOOMANYREFS).
    /// Writes 0 for an unknown user. Answers 0.
    pub fn jw_charged(engine: *mut jw_engine, uid: u32, count: *mut u64) -> i64;
    /// Writes how many descriptors are in flight. Answers 0.
    pub fn jw_total(engine: *mut jw_engine, count: *mut u64) -> i64;
    /// Writes how many files are live. Answers 0.
    pub fn jw_live(engine: *mut jw_engine, count: *mut u64) -> i64;
    /// Writes the least live file above ino, or 0 where there is none. A walk from 0 on comes to
    /// every live file. Answers 0.
    pub fn jw_next_after(engine: *mut jw_engine, ino: u64, next: *mut u64) -> i64;
    /// Answers the pid that the next process gets.
    pub fn jw_next_pid(engine: *mut jw_engine) -> i64;
    /// Writes what the file is. Writes JW_NO_FILE as the kind of an unknown file. Answers 0.
    pub fn jw_file(engine: *mut jw_engine, ino: u64, out: *mut jw_file) -> i64;
    /// Writes the abstract name of a socket (unix(7)), as many bytes as there is room for. Answers
    /// how many bytes the name has: 0 where the file has none, or is unknown. It needs no memory.
    pub fn jw_name(engine: *mut jw_engine, ino: u64, name: *mut u8, len: usize) -> i64;
    /// Writes a picture of all files, with what refers to each, in the language of Graphviz;
    /// garbage is pink. Writes as many bytes as there is room for. Answers how many bytes the
    /// picture has.
    ///
    /// Errors: JW_ENOMEM.
    pub fn jw_graph(engine: *mut jw_engine, text: *mut u8, len: usize) -> i64;
    /// Counts all places anew, compares each number that the engine keeps with that count, and
    /// writes how many files are live and how many of them are garbage. Answers 0.
    ///
    /// Errors: JW_ENOMEM.
    pub fn jw_check(engine: *mut jw_engine, out: *mut jw_checked) -> i64;
    /// Asks for the list of freed files, which jw_released writes, and empties both lists. A call
    /// that makes a file reserves room in the list from now on, so a call that frees files needs no
    /// memory. Answers 0.
    ///
    /// Errors: JW_ENOMEM.
    pub fn jw_tell_released(engine: *mut jw_engine) -> i64;
    /// Asks for the list of sockets whose readiness may have changed (poll(2)), which jw_changed
    /// writes, and empties both lists. A call that makes a file reserves room in the list from now
    /// on, so no other call needs memory for it. Answers 0.
    ///
    /// Errors: JW_ENOMEM.
    pub fn jw_tell_changed(engine: *mut jw_engine) -> i64;
    /// Writes the inode numbers of the files that were freed since the lists were emptied last,
    /// each once, as many as there is room for. Answers the length of the list, which is 0 before
    /// jw_tell_released. It needs no memory.
    pub fn jw_released(engine: *mut jw_engine, inos: *mut u64, ninos: usize) -> i64;
    /// Writes the inode numbers of the live sockets whose readiness may have changed since the
    /// lists were emptied last, each once, as many as there is room for. Answers the length of the
    /// list, which is 0 before jw_tell_changed. It needs no memory.
    ///
    /// For a socket that is not in the list, and whose peer or target is not, jw_poll writes what
    /// it did then; but not where its target was freed since, which jw_released tells.
    pub fn jw_changed(engine: *mut jw_engine, inos: *mut u64, ninos: usize) -> i64;
    /// Empties both lists. It needs no memory. Answers 0.
    pub fn jw_clear_told(engine: *mut jw_engine) -> i64;
}

/// Names what a call answered: `"EBADF"` for `-JW_EBADF` and so on, `"OK"` for 0 and more, and
/// `"unknown"` for what no call answers (strerrorname_np(3)).
pub const fn jw_strerror(answer: i64) -> &'static str {
    if answer >= 0 {
        return "OK";
    }
    match answer.wrapping_neg() {
        JW_EBADF => "EBADF",
        JW_ENOTSOCK => "ENOTSOCK",
        JW_EINVAL => "EINVAL",
        JW_EMFILE => "EMFILE",
        JW_ENFILE => "ENFILE",
        JW_EAGAIN => "EAGAIN",
        JW_EMSGSIZE => "EMSGSIZE",
        JW_ETOOMANYREFS => "ETOOMANYREFS",
        JW_ENOBUFS => "ENOBUFS",
        JW_ENOTCONN => "ENOTCONN",
        JW_EPIPE => "EPIPE",
        JW_EISCONN => "EISCONN",
        JW_EADDRINUSE => "EADDRINUSE",
        JW_ECONNREFUSED => "ECONNREFUSED",
        JW_EPROTOTYPE => "EPROTOTYPE",
        JW_ESRCH => "ESRCH",
        JW_ENOMEM => "ENOMEM",
        JW_EBUSY => "EBUSY",
        JW_EIDLE => "EIDLE",
        JW_ERANGE => "ERANGE",
        JW_EPERM => "EPERM",
        JW_EOPNOTSUPP => "EOPNOTSUPP",
        JW_ENOENGINE => "ENOENGINE",
        JW_EDIFFERS => "EDIFFERS",
        _ => "unknown",
    }
}
