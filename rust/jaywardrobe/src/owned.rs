//! An engine in which each plain file carries a value: a host's descriptor, a buffer, an object.
use crate::{Engine, Errno, Fd, Finished, Ino, Pid, Received, SockType};
use std::collections::{HashMap, HashSet};
use std::error::Error;
use std::fmt;
use std::io;
use std::net::Shutdown;

/// An engine, and a value behind each plain file.
///
/// A value stays behind its file for as long as a table, a queue or a backlog holds the file. Once
/// the file is freed, [`take_released`](Owned::take_released) hands the value back. Dropping an
/// `Owned` drops the values that are left.
///
/// # Examples
///
/// ```
/// use jaywardrobe::{Errno, Owned, SockType};
///
/// let mut engine = Owned::new()?;
/// let pid = engine.spawn(1000, 16, false)?;
/// let (here, there) = engine.pair(pid, SockType::Stream)?;
/// let file = engine.open(pid, "a value".to_owned())?;
///
/// // The file is in flight once its descriptor is closed, and freed with the queue.
/// engine.send(pid, here, "take this", &[file])?;
/// engine.close(pid, file)?;
/// assert_eq!(engine.take_released(), None);
/// engine.close(pid, there)?;
/// assert_eq!(engine.take_released().as_deref(), Some("a value"));
/// # Ok::<(), Errno>(())
/// ```
#[derive(Debug)]
pub struct Owned<T> {
    engine: Engine,
    values: HashMap<Ino, T>,
    /// Freed files whose values may not have been handed back yet.
    released: Vec<Ino>,
    /// Sockets whose readiness may have changed.
    changed: HashSet<Ino>,
}

impl<T> Owned<T> {
    /// Creates an engine to which nothing has happened, and that has no value.
    ///
    /// # Errors
    ///
    /// ENOMEM.
    pub fn new() -> Result<Owned<T>, Errno> {
        let mut engine = Engine::new()?;
        engine.tell_released()?;
        Ok(Owned {
            engine,
            values: HashMap::new(),
            released: Vec::new(),
            changed: HashSet::new(),
        })
    }

    /// Creates such an engine that also lists changed sockets, for
    /// [`take_changed`](Owned::take_changed).
    ///
    /// # Errors
    ///
    /// ENOMEM.
    pub fn with_readiness() -> Result<Owned<T>, Errno> {
        let mut owned = Owned::new()?;
        owned.engine.tell_changed()?;
        Ok(owned)
    }

    /// Returns the engine, for its views.
    pub fn engine(&self) -> &Engine {
        &self.engine
    }

    /// Opens a plain file that carries this value (open(2)). A refusal hands the value back.
    ///
    /// ```
    /// use jaywardrobe::{Errno, Owned};
    ///
    /// let mut engine = Owned::new()?;
    /// let pid = engine.spawn(1000, 1, false)?;
    /// engine.open(pid, "first")?;
    /// let refused = engine.open(pid, "second").unwrap_err();
    /// assert_eq!((refused.errno, refused.value), (Errno::EMFILE, "second"));
    /// # Ok::<(), Errno>(())
    /// ```
    ///
    /// # Errors
    ///
    /// ESRCH, EMFILE, ENFILE, ENOMEM.
    pub fn open(&mut self, by: Pid, value: T) -> Result<Fd, OpenError<T>> {
        let fd = match self.engine.open(by) {
            Ok(fd) => fd,
            Err(errno) => return Err(OpenError { errno, value }),
        };
        let ino = self.engine.ino_at(by, fd).expect("it was just opened");
        // An inode number is given once, so no value is replaced.
        self.values.insert(ino, value);
        Ok(fd)
    }

    /// Returns the value behind the file that a descriptor refers to, or `None` where the
    /// descriptor is not open or refers to a socket.
    pub fn get(&self, of: Pid, on: Fd) -> Option<&T> {
        self.values.get(&self.engine.ino_at(of, on)?)
    }

    /// Returns the same value as [`get`](Owned::get), for changes.
    pub fn get_mut(&mut self, of: Pid, on: Fd) -> Option<&mut T> {
        self.values.get_mut(&self.engine.ino_at(of, on)?)
    }

    /// Hands back the value of a file that was freed, or `None` once each was handed back. Call it
    /// after an event until it returns `None`.
    pub fn take_released(&mut self) -> Option<T> {
        loop {
            if self.released.is_empty() {
                self.read_lists();
            }
            // A socket carries nothing.
            if let Some(value) = self.values.remove(&self.released.pop()?) {
                return Some(value);
            }
        }
    }

    /// Returns the live sockets whose readiness may have changed since it was called last, each
    /// once. The list is empty unless [`with_readiness`](Owned::with_readiness) made the engine. For
    /// a socket that is not listed, and whose peer or target is not, [`Engine::poll`] returns what
    /// it did then; but not where its target was freed since.
    pub fn take_changed(&mut self) -> Vec<Ino> {
        self.read_lists();
        let changed = std::mem::take(&mut self.changed).into_iter();
        changed
            .filter(|ino| self.engine.file(*ino).is_some())
            .collect()
    }

    /// Moves what the engine's lists have into those here: it empties both at once.
    fn read_lists(&mut self) {
        self.released.extend(self.engine.released());
        self.changed.extend(self.engine.changed());
        self.engine.clear_told();
    }
}

/// The calls of [`Engine`] that leave the values as they are, with the same errors.
impl<T> Owned<T> {
    /// Starts a process: see [`Engine::spawn`].
    pub fn spawn(&mut self, uid: u32, nofile: u32, privileged: bool) -> Result<Pid, Errno> {
        self.engine.spawn(uid, nofile, privileged)
    }

    /// Duplicates a descriptor: see [`Engine::dup`].
    pub fn dup(&mut self, by: Pid, from: Fd) -> Result<Fd, Errno> {
        self.engine.dup(by, from)
    }

    /// Duplicates a descriptor to this one: see [`Engine::dup2`].
    pub fn dup2(&mut self, by: Pid, from: Fd, to: Fd) -> Result<Fd, Errno> {
        self.engine.dup2(by, from, to)
    }

    /// Closes a descriptor: see [`Engine::close`].
    pub fn close(&mut self, by: Pid, on: Fd) -> Result<(), Errno> {
        self.engine.close(by, on)
    }

    /// Creates a child with a copy of the table: see [`Engine::fork`].
    pub fn fork(&mut self, by: Pid) -> Result<Pid, Errno> {
        self.engine.fork(by)
    }

    /// Sets the limit on descriptors: see [`Engine::limit`].
    pub fn limit(&mut self, by: Pid, nofile: u32) -> Result<(), Errno> {
        self.engine.limit(by, nofile)
    }

    /// Ends a process: see [`Engine::exit`].
    pub fn exit(&mut self, by: Pid) -> Result<(), Errno> {
        self.engine.exit(by)
    }

    /// Creates two connected sockets: see [`Engine::pair`].
    pub fn pair(&mut self, by: Pid, kind: SockType) -> Result<(Fd, Fd), Errno> {
        self.engine.pair(by, kind)
    }

    /// Creates a socket: see [`Engine::socket`].
    pub fn socket(&mut self, by: Pid, kind: SockType) -> Result<Fd, Errno> {
        self.engine.socket(by, kind)
    }

    /// Gives a socket an abstract name: see [`Engine::bind`].
    pub fn bind(&mut self, by: Pid, on: Fd, name: impl AsRef<[u8]>) -> Result<(), Errno> {
        self.engine.bind(by, on, name)
    }

    /// Lets a socket wait for connections: see [`Engine::listen`].
    pub fn listen(&mut self, by: Pid, on: Fd, backlog: u32) -> Result<(), Errno> {
        self.engine.listen(by, on, backlog)
    }

    /// Connects a socket to a listener: see [`Engine::connect`].
    pub fn connect(&mut self, by: Pid, on: Fd, name: impl AsRef<[u8]>) -> Result<(), Errno> {
        self.engine.connect(by, on, name)
    }

    /// Accepts a connection: see [`Engine::accept`].
    pub fn accept(&mut self, by: Pid, on: Fd) -> Result<Fd, Errno> {
        self.engine.accept(by, on)
    }

    /// Closes ends of a socket, and those of its peer: see [`Engine::shutdown`].
    pub fn shutdown(&mut self, by: Pid, on: Fd, how: Shutdown) -> Result<(), Errno> {
        self.engine.shutdown(by, on, how)
    }

    /// Leaves a datagram socket without a target: see [`Engine::unconnect`].
    pub fn unconnect(&mut self, by: Pid, on: Fd) -> Result<(), Errno> {
        self.engine.unconnect(by, on)
    }

    /// Sends bytes and files: see [`Engine::send`].
    pub fn send(
        &mut self,
        by: Pid,
        on: Fd,
        bytes: impl AsRef<[u8]>,
        attach: &[Fd],
    ) -> Result<usize, Errno> {
        self.engine.send(by, on, bytes, attach)
    }

    /// Receives bytes and descriptors: see [`Engine::recv`].
    pub fn recv(
        &mut self,
        by: Pid,
        on: Fd,
        bytes: &mut [u8],
        fds: &mut [Fd],
    ) -> Result<Option<Received>, Errno> {
        self.engine.recv(by, on, bytes, fds)
    }

    /// Receives, and takes nothing from the queue: see [`Engine::peek`].
    pub fn peek(
        &mut self,
        by: Pid,
        on: Fd,
        bytes: &mut [u8],
        fds: &mut [Fd],
    ) -> Result<Option<Received>, Errno> {
        self.engine.peek(by, on, bytes, fds)
    }

    /// Begins a pass of the collector: see [`Engine::begin`].
    pub fn begin(&mut self) -> Result<u64, Errno> {
        self.engine.begin()
    }

    /// Continues the pass: see [`Engine::slice`].
    pub fn slice(&mut self, budget: u32) -> Result<Option<Finished>, Errno> {
        self.engine.slice(budget)
    }

    /// Does a whole pass at once: see [`Engine::pass`].
    pub fn pass(&mut self) -> Result<Finished, Errno> {
        self.engine.pass()
    }
}

/// Why [`Owned::open`] is refused, and the value that no file carries.
#[derive(Clone, Copy, PartialEq, Eq)]
pub struct OpenError<T> {
    /// Why the file was not opened.
    pub errno: Errno,
    /// The value.
    pub value: T,
}

// A value needs no `Debug` for the error to be one.
impl<T> fmt::Debug for OpenError<T> {
    fn fmt(&self, f: &mut fmt::Formatter<'_>) -> fmt::Result {
        f.debug_struct("OpenError")
            .field("errno", &self.errno)
            .finish_non_exhaustive()
    }
}

impl<T> fmt::Display for OpenError<T> {
    fn fmt(&self, f: &mut fmt::Formatter<'_>) -> fmt::Result {
        self.errno.fmt(f)
    }
}

impl<T> Error for OpenError<T> {}

impl<T> From<OpenError<T>> for Errno {
    fn from(error: OpenError<T>) -> Errno {
        error.errno
    }
}

impl<T> From<OpenError<T>> for io::Error {
    fn from(error: OpenError<T>) -> io::Error {
        error.errno.into()
    }
}
