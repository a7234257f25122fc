//! The views of an engine, and its lists of freed files and changed sockets.
use crate::engine::{to_fd, to_pid};
use crate::{Checked, Engine, Errno, Fd, File, Ino, MAX_NAME, Pid, Ready};
use std::iter::FusedIterator;

/// These views have one error, that of a handle without an engine, and [`Engine`]'s has one.
const NEVER_REFUSED: &str = "the handle has an engine";

/// Processes, descriptors and files.
impl Engine {
    /// Returns the pid that the next process gets.
    pub fn next_pid(&self) -> Pid {
        to_pid(self.handle.next_pid().expect(NEVER_REFUSED))
    }

    /// Returns the file that a descriptor refers to, or `None` where it is not open.
    pub fn ino_at(&self, of: Pid, on: Fd) -> Option<Ino> {
        let (_, ino) = self.handle.ino(of.0, on.0).expect(NEVER_REFUSED);
        (ino > 0).then_some(Ino(ino))
    }

    /// Returns the open descriptors of a process, by rising number, and their files.
    ///
    /// ```
    /// use jaywardrobe::{Engine, Errno, Fd, SockType};
    ///
    /// let mut engine = Engine::new()?;
    /// let pid = engine.spawn(1000, 16, false)?;
    /// let (here, there) = engine.pair(pid, SockType::Stream)?;
    /// engine.dup2(pid, here, Fd(9))?;
    /// let open: Vec<Fd> = engine.descriptors(pid).map(|(fd, _)| fd).collect();
    /// assert_eq!(open, [here, there, Fd(9)]);
    /// # Ok::<(), Errno>(())
    /// ```
    pub fn descriptors(&self, of: Pid) -> Descriptors<'_> {
        Descriptors {
            engine: self,
            of,
            from: Some(Fd(0)),
        }
    }

    /// Returns what a descriptor is ready for (poll(2)): what its next receive, accept or send
    /// finds. So an idle or hung-up socket is not writable, unlike in Linux. A plain file is always
    /// readable and writable.
    ///
    /// # Errors
    ///
    /// ESRCH, EBADF.
    pub fn poll(&self, of: Pid, on: Fd) -> Result<Ready, Errno> {
        let (_, it) = self.handle.poll(of.0, on.0)?;
        Ok(Ready {
            readable: it.readable,
            writable: it.writable,
            hung_up: it.hung_up,
        })
    }

    /// Returns the kind and the state of a file, or `None` where it is not live.
    pub fn file(&self, ino: Ino) -> Option<File> {
        let (_, it) = self.handle.file(ino.0).expect(NEVER_REFUSED);
        File::from_written(it)
    }

    /// Returns the abstract name of a socket, or `None` where it has none.
    pub fn name(&self, ino: Ino) -> Option<String> {
        let mut name = vec![0; MAX_NAME];
        let length = self.handle.name(ino.0, &mut name).expect(NEVER_REFUSED);
        name.truncate(length);
        let name = String::from_utf8(name).expect("a name has letters of ASCII alone");
        (!name.is_empty()).then_some(name)
    }

    /// Returns the live files, by rising inode number.
    ///
    /// ```
    /// use jaywardrobe::{Engine, Errno, File};
    ///
    /// let mut engine = Engine::new()?;
    /// let pid = engine.spawn(1000, 16, false)?;
    /// engine.open(pid)?;
    /// engine.open(pid)?;
    /// assert!(engine.files().all(|ino| engine.file(ino) == Some(File::Plain)));
    /// assert_eq!(engine.files().count() as u64, engine.live());
    /// # Ok::<(), Errno>(())
    /// ```
    pub fn files(&self) -> Files<'_> {
        Files {
            engine: self,
            after: Some(Ino(0)),
        }
    }
}

/// Counts, and what is checked or drawn.
impl Engine {
    /// Returns how many places in tables, queues and backlogs hold the file: its reference count.
    pub fn refs(&self, ino: Ino) -> u64 {
        self.handle.refs(ino.0).expect(NEVER_REFUSED).1
    }

    /// Returns how often the file is in flight, repeats included (unix(7), SCM_RIGHTS).
    pub fn inflight(&self, ino: Ino) -> u64 {
        self.handle.inflight(ino.0).expect(NEVER_REFUSED).1
    }

    /// Returns how many descriptors in flight are charged to the user (unix(7), ETOOMANYREFS).
    pub fn charged(&self, uid: u32) -> u64 {
        self.handle.charged(uid).expect(NEVER_REFUSED).1
    }

    /// Returns how many descriptors are in flight.
    pub fn total(&self) -> u64 {
        self.handle.total().expect(NEVER_REFUSED).1
    }

    /// Returns how many files are live.
    pub fn live(&self) -> u64 {
        self.handle.live().expect(NEVER_REFUSED).1
    }

    /// Compares each number that the engine keeps with a recount, and counts live files and
    /// garbage.
    ///
    /// # Errors
    ///
    /// ENOMEM.
    pub fn check(&self) -> Result<Checked, Errno> {
        let (_, it) = self.handle.check()?;
        Ok(Checked {
            live: it.live,
            garbage: it.garbage,
        })
    }

    /// Returns a picture of all files, with what refers to each, in the language of Graphviz.
    /// Garbage is pink.
    ///
    /// # Errors
    ///
    /// ENOMEM.
    pub fn graph(&self) -> Result<String, Errno> {
        let mut text = vec![0; self.handle.graph(&mut [])?];
        self.handle.graph(&mut text)?;
        Ok(String::from_utf8(text).expect("a picture has letters of ASCII alone"))
    }
}

/// Freed files, and sockets whose readiness may have changed.
impl Engine {
    /// Asks for the list of freed files, [`released`](Engine::released), and empties both lists.
    ///
    /// ```
    /// use jaywardrobe::{Engine, Errno};
    ///
    /// let mut engine = Engine::new()?;
    /// engine.tell_released()?;
    /// let pid = engine.spawn(1000, 16, false)?;
    /// let fd = engine.open(pid)?;
    /// let ino = engine.ino_at(pid, fd).expect("it was just opened");
    /// engine.close(pid, fd)?;
    /// assert_eq!(engine.released(), [ino]);
    /// engine.clear_told();
    /// assert_eq!(engine.released(), []);
    /// # Ok::<(), Errno>(())
    /// ```
    ///
    /// # Errors
    ///
    /// ENOMEM.
    pub fn tell_released(&mut self) -> Result<(), Errno> {
        self.handle.tell_released().map(drop)
    }

    /// Asks for the list of sockets whose readiness may have changed, [`changed`](Engine::changed),
    /// and empties both lists.
    ///
    /// # Errors
    ///
    /// ENOMEM.
    pub fn tell_changed(&mut self) -> Result<(), Errno> {
        self.handle.tell_changed().map(drop)
    }

    /// Returns the files that were freed since the lists were emptied last, each once.
    pub fn released(&self) -> Vec<Ino> {
        list_of(|inos| self.handle.released(inos))
    }

    /// Returns the live sockets whose readiness may have changed since the lists were emptied last,
    /// each once. For a socket that is not listed, and whose peer or target is not,
    /// [`poll`](Engine::poll) returns what it did then; but not where its target was freed since,
    /// which [`released`](Engine::released) tells.
    pub fn changed(&self) -> Vec<Ino> {
        list_of(|inos| self.handle.changed(inos))
    }

    /// Empties both lists.
    pub fn clear_told(&mut self) {
        self.handle.clear_told().expect(NEVER_REFUSED);
    }
}

/// Returns the whole list that a call writes as far as there is room.
fn list_of(call: impl Fn(&mut [u64]) -> Result<usize, Errno>) -> Vec<Ino> {
    let mut inos = vec![0; call(&mut []).expect(NEVER_REFUSED)];
    call(&mut inos).expect(NEVER_REFUSED);
    inos.into_iter().map(Ino).collect()
}

/// An iterator over the open descriptors of a process: see [`Engine::descriptors`].
#[derive(Clone, Debug)]
#[must_use = "an iterator does nothing until it is used"]
pub struct Descriptors<'engine> {
    engine: &'engine Engine,
    of: Pid,
    /// The lowest descriptor that may come next, or `None` at the end.
    from: Option<Fd>,
}

impl Iterator for Descriptors<'_> {
    type Item = (Fd, Ino);

    fn next(&mut self) -> Option<(Fd, Ino)> {
        // No descriptor is open from there on, or there is no such process.
        let next = self.engine.handle.next_fd(self.of.0, self.from?.0).ok();
        let item = next.map(|(fd, ino)| (to_fd(fd), Ino(ino)));
        self.from = item.map(|(fd, _)| Fd(fd.0 + 1));
        item
    }
}

impl FusedIterator for Descriptors<'_> {}

/// An iterator over the live files: see [`Engine::files`].
#[derive(Clone, Debug)]
#[must_use = "an iterator does nothing until it is used"]
pub struct Files<'engine> {
    engine: &'engine Engine,
    /// The file that came last, or `None` at the end.
    after: Option<Ino>,
}

impl Iterator for Files<'_> {
    type Item = Ino;

    fn next(&mut self) -> Option<Ino> {
        let (_, next) = self
            .engine
            .handle
            .next_after(self.after?.0)
            .expect(NEVER_REFUSED);
        self.after = (next > 0).then_some(Ino(next));
        self.after
    }
}

impl FusedIterator for Files<'_> {}
