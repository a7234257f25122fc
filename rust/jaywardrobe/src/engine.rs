//! An engine, and the calls that change it.
use crate::handle::Handle;
use crate::types::code_of_ends;
use crate::{Errno, Fd, Finished, Pid, Received, SockType};
use std::fmt;
use std::net::Shutdown;

/// A world of processes, descriptors, sockets and queues, with a collector.
///
/// A call does one step of a process, or of the collector, and returns at once: where a process
/// would wait, it is refused with [`Errno::EAGAIN`]. After a refusal the engine is as it was. Where
/// several errors fit, the first that the call lists is returned.
///
/// An engine may move to another thread, and is used by one at a time:
/// [`Shared`](crate::Shared) has a lock for it.
///
/// ```
/// fn needs_send<T: Send>() {}
/// needs_send::<jaywardrobe::Engine>();
/// ```
///
/// ```compile_fail,E0277
/// fn needs_sync<T: Sync>() {}
/// needs_sync::<jaywardrobe::Engine>();
/// ```
///
/// # Examples
///
/// ```
/// use jaywardrobe::{Engine, Errno, Fd, SockType};
///
/// let mut engine = Engine::new()?;
/// let parent = engine.spawn(1000, 64, false)?;
/// let (here, there) = engine.pair(parent, SockType::Seqpacket)?;
/// let child = engine.fork(parent)?;
///
/// // The parent's file is in flight, and then the child's alone.
/// let file = engine.open(parent)?;
/// engine.send(parent, here, "take this", &[file])?;
/// engine.exit(parent)?;
/// assert_eq!(engine.total(), 1);
///
/// let (mut bytes, mut fds) = ([0; 16], [Fd(0); 1]);
/// let got = engine.recv(child, there, &mut bytes, &mut fds)?.expect("a message waits");
/// assert_eq!(&bytes[..got.bytes], b"take this");
/// assert!(engine.ino_at(child, fds[0]).is_some());
/// # Ok::<(), Errno>(())
/// ```
pub struct Engine {
    pub(crate) handle: Handle,
}

impl Engine {
    /// Creates an engine to which nothing has happened.
    ///
    /// # Errors
    ///
    /// ENOMEM.
    pub fn new() -> Result<Engine, Errno> {
        Handle::new().map(|handle| Engine { handle })
    }
}

/// Processes and their tables.
impl Engine {
    /// Starts a process of this user, as after fork(2) and setuid(2), with an empty table and a
    /// limit on its descriptors (RLIMIT_NOFILE). A privileged process is not held to its user's
    /// share of descriptors in flight (unix(7), CAP_SYS_RESOURCE).
    ///
    /// # Errors
    ///
    /// ERANGE, EAGAIN, ENOMEM.
    pub fn spawn(&mut self, uid: u32, nofile: u32, privileged: bool) -> Result<Pid, Errno> {
        self.handle.spawn(uid, nofile, privileged).map(to_pid)
    }

    /// Opens a plain file at the lowest free descriptor (open(2)).
    ///
    /// # Errors
    ///
    /// ESRCH, EMFILE, ENFILE, ENOMEM.
    pub fn open(&mut self, by: Pid) -> Result<Fd, Errno> {
        self.handle.open(by.0).map(to_fd)
    }

    /// Duplicates a descriptor to the lowest free one (dup(2)).
    ///
    /// # Errors
    ///
    /// ESRCH, EBADF, EMFILE, ENOMEM.
    pub fn dup(&mut self, by: Pid, from: Fd) -> Result<Fd, Errno> {
        self.handle.dup(by.0, from.0).map(to_fd)
    }

    /// Duplicates a descriptor to this one, in place of what it referred to (dup2(2)). Returns the
    /// new descriptor.
    ///
    /// # Errors
    ///
    /// ESRCH, EBADF, ENOMEM.
    pub fn dup2(&mut self, by: Pid, from: Fd, to: Fd) -> Result<Fd, Errno> {
        self.handle.dup2(by.0, from.0, to.0).map(to_fd)
    }

    /// Closes a descriptor (close(2)).
    ///
    /// # Errors
    ///
    /// ESRCH, EBADF.
    pub fn close(&mut self, by: Pid, on: Fd) -> Result<(), Errno> {
        self.handle.close(by.0, on.0).map(drop)
    }

    /// Creates a child with a copy of the table (fork(2)).
    ///
    /// # Errors
    ///
    /// ESRCH, EAGAIN, ENOMEM.
    pub fn fork(&mut self, by: Pid) -> Result<Pid, Errno> {
        self.handle.fork(by.0).map(to_pid)
    }

    /// Sets the limit on descriptors, up or down (setrlimit(2), RLIMIT_NOFILE). Open descriptors
    /// stay open, also at or above it.
    ///
    /// # Errors
    ///
    /// ESRCH, ERANGE.
    pub fn limit(&mut self, by: Pid, nofile: u32) -> Result<(), Errno> {
        self.handle.limit(by.0, nofile).map(drop)
    }

    /// Ends a process, and closes its descriptors (_exit(2)).
    ///
    /// # Errors
    ///
    /// ESRCH.
    pub fn exit(&mut self, by: Pid) -> Result<(), Errno> {
        self.handle.exit(by.0).map(drop)
    }
}

/// Sockets, their names and connections.
impl Engine {
    /// Creates two sockets that are connected to each other (socketpair(2)). The first descriptor
    /// is the lower one.
    ///
    /// # Errors
    ///
    /// ESRCH, EMFILE, ENFILE, ENOMEM.
    pub fn pair(&mut self, by: Pid, kind: SockType) -> Result<(Fd, Fd), Errno> {
        let (_, pair) = self.handle.pair(by.0, kind.code())?;
        Ok((Fd(pair.first), Fd(pair.second)))
    }

    /// Creates a socket (socket(2)).
    ///
    /// # Errors
    ///
    /// ESRCH, EMFILE, ENFILE, ENOMEM.
    pub fn socket(&mut self, by: Pid, kind: SockType) -> Result<Fd, Errno> {
        self.handle.socket(by.0, kind.code()).map(to_fd)
    }

    /// Gives a socket an abstract name (bind(2), unix(7)): 1 to [`MAX_NAME`](crate::MAX_NAME)
    /// letters, digits, `-`, `.` and `_`.
    ///
    /// # Errors
    ///
    /// ESRCH, EBADF, ENOTSOCK, EINVAL, EADDRINUSE, ENOMEM.
    pub fn bind(&mut self, by: Pid, on: Fd, name: impl AsRef<[u8]>) -> Result<(), Errno> {
        self.handle.bind(by.0, on.0, name.as_ref()).map(drop)
    }

    /// Lets a socket with a name wait for connections: 1 to [`MAX_BACKLOG`](crate::MAX_BACKLOG) at
    /// once (listen(2)).
    ///
    /// # Errors
    ///
    /// ESRCH, EBADF, ENOTSOCK, EOPNOTSUPP for a datagram socket, EINVAL, ENOMEM.
    pub fn listen(&mut self, by: Pid, on: Fd, backlog: u32) -> Result<(), Errno> {
        self.handle.listen(by.0, on.0, backlog).map(drop)
    }

    /// Connects a socket to the listener of this name (connect(2)). The socket is connected
    /// immediately, and the other end waits to be accepted. A datagram socket sends to the one of
    /// this name from now on, its target; if it sent to another, what waits at it is lost.
    ///
    /// ```
    /// use jaywardrobe::{Engine, Errno, SockType};
    ///
    /// let mut engine = Engine::new()?;
    /// let pid = engine.spawn(1000, 16, false)?;
    /// let listener = engine.socket(pid, SockType::Stream)?;
    /// engine.bind(pid, listener, "files")?;
    /// engine.listen(pid, listener, 8)?;
    ///
    /// let client = engine.socket(pid, SockType::Stream)?;
    /// engine.connect(pid, client, "files")?;
    /// let server = engine.accept(pid, listener)?;
    /// assert_eq!(engine.send(pid, client, "hello", &[])?, 5);
    /// assert!(engine.poll(pid, server)?.readable);
    /// # Ok::<(), Errno>(())
    /// ```
    ///
    /// # Errors
    ///
    /// ESRCH, EBADF, ENOTSOCK, EINVAL, EISCONN; for a datagram socket ECONNREFUSED, and EPERM where
    /// the target sends to another; for others ECONNREFUSED, EPROTOTYPE, EAGAIN, ENFILE, ENOMEM.
    pub fn connect(&mut self, by: Pid, on: Fd, name: impl AsRef<[u8]>) -> Result<(), Errno> {
        self.handle.connect(by.0, on.0, name.as_ref()).map(drop)
    }

    /// Accepts the connection that waits longest at a listener (accept(2)).
    ///
    /// # Errors
    ///
    /// ESRCH, EBADF, ENOTSOCK, EOPNOTSUPP for a datagram socket, EINVAL, EAGAIN, EMFILE, ENOMEM.
    pub fn accept(&mut self, by: Pid, on: Fd) -> Result<Fd, Errno> {
        self.handle.accept(by.0, on.0).map(to_fd)
    }

    /// Closes the input of a socket, its output, or both, and with them the output or input of its
    /// peer (shutdown(2)). What waits can still be received. A closed end is never opened again.
    ///
    /// ```
    /// use jaywardrobe::{Engine, Errno, SockType};
    /// use std::net::Shutdown;
    ///
    /// let mut engine = Engine::new()?;
    /// let pid = engine.spawn(1000, 16, false)?;
    /// let (here, there) = engine.pair(pid, SockType::Stream)?;
    /// engine.send(pid, here, "last", &[])?;
    /// engine.shutdown(pid, here, Shutdown::Write)?;
    /// assert_eq!(engine.send(pid, here, "more", &[]), Err(Errno::EPIPE));
    ///
    /// let mut bytes = [0; 8];
    /// let got = engine.recv(pid, there, &mut bytes, &mut [])?;
    /// assert_eq!(got.map(|got| got.bytes), Some(4));
    /// assert_eq!(engine.recv(pid, there, &mut bytes, &mut [])?, None);
    /// // The other direction stays open.
    /// assert_eq!(engine.send(pid, there, "thanks", &[])?, 6);
    /// # Ok::<(), Errno>(())
    /// ```
    ///
    /// # Errors
    ///
    /// ESRCH, EBADF, ENOTSOCK.
    pub fn shutdown(&mut self, by: Pid, on: Fd, how: Shutdown) -> Result<(), Errno> {
        let how = code_of_ends(how);
        self.handle.shutdown(by.0, on.0, how).map(drop)
    }

    /// Leaves a datagram socket without a target (connect(2) to AF_UNSPEC). If it had one, what
    /// waits at it is lost.
    ///
    /// ```
    /// use jaywardrobe::{Engine, Errno, SockType};
    ///
    /// let mut engine = Engine::new()?;
    /// let pid = engine.spawn(1000, 16, false)?;
    /// let log = engine.socket(pid, SockType::Dgram)?;
    /// engine.bind(pid, log, "log")?;
    ///
    /// let here = engine.socket(pid, SockType::Dgram)?;
    /// engine.connect(pid, here, "log")?;
    /// assert_eq!(engine.send(pid, here, "hello", &[])?, 5);
    /// engine.unconnect(pid, here)?;
    /// assert_eq!(engine.send(pid, here, "more", &[]), Err(Errno::ENOTCONN));
    /// assert!(engine.poll(pid, log)?.readable);
    /// # Ok::<(), Errno>(())
    /// ```
    ///
    /// # Errors
    ///
    /// ESRCH, EBADF, ENOTSOCK, EINVAL for a socket of another type.
    pub fn unconnect(&mut self, by: Pid, on: Fd) -> Result<(), Errno> {
        self.handle.unconnect(by.0, on.0).map(drop)
    }
}

/// Messages.
impl Engine {
    /// Sends 1 to [`MAX_BYTES`](crate::MAX_BYTES) bytes, and with them the files of at most
    /// [`MAX_FDS`](crate::MAX_FDS) descriptors (sendmsg(2), SCM_RIGHTS). Returns how many bytes
    /// were sent, which is all of them.
    ///
    /// # Errors
    ///
    /// ESRCH, EBADF, ENOTSOCK, EINVAL, EMSGSIZE, EBADF for an attached descriptor, ENOTCONN, EPIPE
    /// where the peer is gone or the output is closed; for a datagram socket ENOTCONN without a
    /// target, ECONNREFUSED where it is gone, EPERM where it sends to another; ETOOMANYREFS,
    /// ENOBUFS, EPIPE where the peer's input is closed, EAGAIN, ENOMEM.
    pub fn send(
        &mut self,
        by: Pid,
        on: Fd,
        bytes: impl AsRef<[u8]>,
        attach: &[Fd],
    ) -> Result<usize, Errno> {
        self.handle.send(by.0, on.0, bytes.as_ref(), attach)
    }

    /// Receives bytes and descriptors into these slices (recvmsg(2), SCM_RIGHTS). Returns `None`
    /// once nothing is left, and the peer is gone or the socket's input closed.
    ///
    /// Bytes of a packet that do not fit are dropped; those of a stream wait for the next receive.
    /// Descriptors that do not fit, or for which the table has no room, are closed.
    ///
    /// ```
    /// use jaywardrobe::{Engine, Errno, Fd, SockType};
    ///
    /// let mut engine = Engine::new()?;
    /// let pid = engine.spawn(1000, 16, false)?;
    /// let (here, there) = engine.pair(pid, SockType::Seqpacket)?;
    /// engine.send(pid, here, "hello", &[here, there])?;
    ///
    /// let (mut bytes, mut fds) = ([0; 4], [Fd(0); 1]);
    /// let got = engine.recv(pid, there, &mut bytes, &mut fds)?.expect("a message waits");
    /// assert_eq!((&bytes[..got.bytes], got.fds), (&b"hell"[..], 1));
    /// assert!(got.trunc && got.ctrunc);
    /// assert_eq!(engine.ino_at(pid, fds[0]), engine.ino_at(pid, here));
    ///
    /// assert_eq!(engine.recv(pid, there, &mut bytes, &mut fds), Err(Errno::EAGAIN));
    /// engine.close(pid, here)?;
    /// engine.close(pid, fds[0])?;
    /// assert_eq!(engine.recv(pid, there, &mut bytes, &mut fds), Ok(None));
    /// # Ok::<(), Errno>(())
    /// ```
    ///
    /// # Errors
    ///
    /// ESRCH, EBADF, ENOTSOCK, EINVAL, ENOTCONN, EAGAIN, ENOMEM.
    pub fn recv(
        &mut self,
        by: Pid,
        on: Fd,
        bytes: &mut [u8],
        fds: &mut [Fd],
    ) -> Result<Option<Received>, Errno> {
        self.handle.recv(by.0, on.0, bytes, fds).map(to_received)
    }

    /// Returns what a receive would, and takes nothing from the queue (recvmsg(2), MSG_PEEK). The
    /// descriptors are installed, and stay in the queue too.
    ///
    /// # Errors
    ///
    /// ESRCH, EBADF, ENOTSOCK, EINVAL, ENOTCONN, EAGAIN, ENOMEM.
    pub fn peek(
        &mut self,
        by: Pid,
        on: Fd,
        bytes: &mut [u8],
        fds: &mut [Fd],
    ) -> Result<Option<Received>, Errno> {
        self.handle.peek(by.0, on.0, bytes, fds).map(to_received)
    }
}

/// The collector.
impl Engine {
    /// Begins a pass of the collector, and returns its number. It costs the same with few files and
    /// with many, except once in 2^32 passes.
    ///
    /// # Errors
    ///
    /// EBUSY.
    pub fn begin(&mut self) -> Result<u64, Errno> {
        self.handle.begin().map(|(_, pass)| pass)
    }

    /// Continues the pass by at most this many units, 1 to [`MAX_BUDGET`](crate::MAX_BUDGET); a unit
    /// visits, scans or sweeps one file. Returns `None` while the pass runs.
    ///
    /// ```
    /// use jaywardrobe::{Engine, Errno, SockType};
    ///
    /// let mut engine = Engine::new()?;
    /// let pid = engine.spawn(1000, 16, false)?;
    /// let (here, there) = engine.pair(pid, SockType::Stream)?;
    /// engine.send(pid, here, "me", &[there])?;
    /// engine.exit(pid)?;
    /// assert_eq!(engine.live(), 1);
    ///
    /// engine.begin()?;
    /// let finished = loop {
    ///     // Other calls may come here.
    ///     if let Some(finished) = engine.slice(1)? {
    ///         break finished;
    ///     }
    /// };
    /// assert_eq!(finished.reclaimed, 1);
    /// assert_eq!(engine.live(), 0);
    /// # Ok::<(), Errno>(())
    /// ```
    ///
    /// # Errors
    ///
    /// EIDLE, EINVAL.
    pub fn slice(&mut self, budget: u32) -> Result<Option<Finished>, Errno> {
        let (more, finished) = self.handle.slice(budget)?;
        Ok((more == 0).then(|| finished.into()))
    }

    /// Does a whole pass at once, which frees all garbage.
    ///
    /// # Errors
    ///
    /// EBUSY.
    pub fn pass(&mut self) -> Result<Finished, Errno> {
        self.handle.pass().map(|(_, finished)| finished.into())
    }
}

impl fmt::Debug for Engine {
    fn fmt(&self, f: &mut fmt::Formatter<'_>) -> fmt::Result {
        f.debug_struct("Engine")
            .field("live", &self.live())
            .field("total", &self.total())
            .finish_non_exhaustive()
    }
}

/// Returns the pid that a call answers. All pids are below 2^32.
pub(crate) fn to_pid(answer: u64) -> Pid {
    Pid(answer as u32)
}

/// Returns the descriptor that a call answers. All descriptors are below 2^32.
pub(crate) fn to_fd(answer: u64) -> Fd {
    Fd(answer as u32)
}

/// Returns the outcome of a receive. No message is empty, so no bytes are the end.
fn to_received((bytes, rest): (usize, jaywardrobe_sys::jw_received)) -> Option<Received> {
    (bytes > 0).then_some(Received {
        bytes,
        fds: rest.fds,
        trunc: rest.trunc,
        ctrunc: rest.ctrunc,
    })
}
