//! Random calls, after which what an engine says of itself has to agree, and each value has to come
//! back once.
use jaywardrobe::{Engine, Errno, Fd, File, Ino, Owned, Pid, SockType, State};
use std::collections::{HashMap, HashSet};
use std::net::Shutdown;

/// splitmix64, which gives each seed another walk.
struct Random(u64);

impl Random {
    fn next(&mut self) -> u64 {
        self.0 = self.0.wrapping_add(0x9e37_79b9_7f4a_7c15);
        let mut bits = self.0;
        bits = (bits ^ (bits >> 30)).wrapping_mul(0xbf58_476d_1ce4_e5b9);
        bits = (bits ^ (bits >> 27)).wrapping_mul(0x94d0_49bb_1331_11eb);
        bits ^ (bits >> 31)
    }

    fn below(&mut self, bound: usize) -> usize {
        (self.next() % bound as u64) as usize
    }
}

/// An engine whose plain files carry 0, 1, 2 and so on.
struct Walk {
    random: Random,
    engine: Owned<u64>,
    pids: Vec<Pid>,
    opened: u64,
    handed_back: HashSet<u64>,
}

impl Walk {
    fn new(seed: u64) -> Result<Walk, Errno> {
        Ok(Walk {
            random: Random(seed),
            engine: Owned::new()?,
            pids: Vec::new(),
            opened: 0,
            handed_back: HashSet::new(),
        })
    }

    fn pid(&mut self) -> Pid {
        self.pids[self.random.below(self.pids.len())]
    }

    /// Draws a descriptor of the process: an open one, as a rule.
    fn fd(&mut self, of: Pid) -> Fd {
        self.fd_where(of, |_| true)
    }

    /// Draws a descriptor of the process: one of a socket, as a rule.
    fn socket(&mut self, of: Pid) -> Fd {
        self.fd_where(of, |file| file != Some(File::Plain))
    }

    fn fd_where(&mut self, of: Pid, is_wanted: impl Fn(Option<File>) -> bool) -> Fd {
        let engine = self.engine.engine();
        let open = engine.descriptors(of);
        let wanted: Vec<Fd> = open
            .filter(|(_, ino)| is_wanted(engine.file(*ino)))
            .map(|(fd, _)| fd)
            .collect();
        if wanted.is_empty() || self.random.below(16) == 0 {
            Fd(self.random.below(40) as u32)
        } else {
            wanted[self.random.below(wanted.len())]
        }
    }

    fn kind(&mut self) -> SockType {
        let kinds = [SockType::Stream, SockType::Seqpacket, SockType::Dgram];
        kinds[self.random.below(kinds.len())]
    }

    fn name(&mut self) -> &'static str {
        ["red", "green", "blue"][self.random.below(3)]
    }

    /// Makes one random call.
    fn step(&mut self) -> Result<(), Errno> {
        if self.pids.is_empty() {
            let uid = self.random.below(3) as u32;
            self.pids.push(self.engine.spawn(uid, 32, uid == 0)?);
        }
        let by = self.pid();
        match self.random.below(40) {
            0..4 => self.open(by),
            4..11 => self.send(by),
            11..19 => self.receive(by),
            19..23 => self.pair(by),
            23 => self.duplicate(by),
            24..31 => self.close(by),
            31 => self.fork_or_exit(by),
            32..36 => self.meet(by),
            36 => self.shutdown(by),
            37 => self.engine.begin().map(drop),
            _ => self.engine.slice(3).map(drop),
        }
    }

    fn open(&mut self, by: Pid) -> Result<(), Errno> {
        let opened = self.engine.open(by, self.opened);
        opened.inspect_err(|refused| assert_eq!(refused.value, self.opened))?;
        self.opened += 1;
        Ok(())
    }

    fn send(&mut self, by: Pid) -> Result<(), Errno> {
        let on = self.socket(by);
        let attach: Vec<Fd> = (0..self.random.below(4)).map(|_| self.fd(by)).collect();
        let bytes = vec![7; 1 + self.random.below(5)];
        self.engine.send(by, on, &bytes, &attach).map(drop)
    }

    fn receive(&mut self, by: Pid) -> Result<(), Errno> {
        let on = self.socket(by);
        let mut bytes = vec![0; 1 + self.random.below(5)];
        let mut fds = vec![Fd(99); self.random.below(4)];
        let got = if self.random.below(4) == 0 {
            self.engine.peek(by, on, &mut bytes, &mut fds)?
        } else {
            self.engine.recv(by, on, &mut bytes, &mut fds)?
        };
        let (count, installed) = got.map_or((0, 0), |got| (got.bytes, got.fds));
        assert!(bytes[..count].iter().all(|byte| *byte == 7));
        assert!(bytes[count..].iter().all(|byte| *byte == 0));
        let engine = self.engine.engine();
        assert!(
            fds[..installed]
                .iter()
                .all(|fd| engine.ino_at(by, *fd).is_some())
        );
        assert!(fds[installed..].iter().all(|fd| *fd == Fd(99)));
        Ok(())
    }

    fn pair(&mut self, by: Pid) -> Result<(), Errno> {
        let kind = self.kind();
        self.engine.pair(by, kind).map(drop)
    }

    fn duplicate(&mut self, by: Pid) -> Result<(), Errno> {
        let (from, to) = (self.fd(by), self.fd(by));
        if self.random.below(2) == 0 {
            self.engine.dup(by, from).map(drop)
        } else {
            self.engine.dup2(by, from, to).map(drop)
        }
    }

    fn close(&mut self, by: Pid) -> Result<(), Errno> {
        let on = self.fd(by);
        self.engine.close(by, on)
    }

    fn fork_or_exit(&mut self, by: Pid) -> Result<(), Errno> {
        if self.pids.len() < 5 {
            self.pids.push(self.engine.fork(by)?);
        } else {
            self.pids.retain(|pid| *pid != by);
            self.engine.exit(by)?;
        }
        Ok(())
    }

    /// Accepts a connection, or makes a socket that listens or is connected.
    fn meet(&mut self, by: Pid) -> Result<(), Errno> {
        if self.random.below(4) == 0 {
            let on = self.fd_where(by, is_listener);
            return self.engine.accept(by, on).map(drop);
        }
        let (kind, name) = (self.kind(), self.name());
        let on = self.engine.socket(by, kind)?;
        let met = if self.random.below(3) == 0 {
            let bound = self.engine.bind(by, on, name);
            match kind {
                SockType::Dgram => bound,
                _ => bound.and_then(|()| self.engine.listen(by, on, 2)),
            }
        } else {
            self.engine.connect(by, on, name)
        };
        if met.is_err() {
            self.engine.close(by, on)?;
        }
        met
    }

    fn shutdown(&mut self, by: Pid) -> Result<(), Errno> {
        let on = self.socket(by);
        if self.random.below(3) == 0 {
            return self.engine.unconnect(by, on);
        }
        let ends = [Shutdown::Read, Shutdown::Write, Shutdown::Both];
        let how = ends[self.random.below(ends.len())];
        self.engine.shutdown(by, on, how)?;
        // It is shut already, and stays so.
        let ready = self.engine.engine().poll(by, on);
        self.engine.shutdown(by, on, how)?;
        assert_eq!(self.engine.engine().poll(by, on), ready);
        Ok(())
    }

    /// Takes the values of freed files. Each was given, and none came before.
    fn take_released(&mut self) {
        while let Some(value) = self.engine.take_released() {
            assert!(value < self.opened);
            assert!(self.handed_back.insert(value), "{value} came back twice");
        }
    }

    /// Compares the counts of the engine with those that its walks give.
    fn compare(&self) {
        let engine = self.engine.engine();
        let files: Vec<Ino> = engine.files().collect();
        let checked = engine.check().expect("memory is ample");
        assert_eq!(
            (engine.live(), checked.live),
            (files.len() as u64, files.len() as u64)
        );
        assert_eq!(
            engine.total(),
            files.iter().map(|ino| engine.inflight(*ino)).sum()
        );
        assert_eq!(engine.total(), (0..3).map(|uid| engine.charged(uid)).sum());
        let plain = files
            .iter()
            .filter(|ino| engine.file(**ino) == Some(File::Plain));
        assert_eq!(plain.count() + self.handed_back.len(), self.opened as usize);
        self.compare_references(&files);
        files.iter().for_each(|ino| compare_peers(engine, *ino));
    }

    /// Compares reference counts with the open descriptors, and these with their values.
    fn compare_references(&self, files: &[Ino]) {
        let engine = self.engine.engine();
        let mut open = HashMap::new();
        for pid in &self.pids {
            for (fd, ino) in engine.descriptors(*pid) {
                *open.entry(ino).or_insert(0) += 1;
                assert_eq!(engine.ino_at(*pid, fd), Some(ino));
                let carries = self.engine.get(*pid, fd).is_some();
                assert_eq!(carries, engine.file(ino) == Some(File::Plain));
            }
        }
        let (mut waiting, mut embryos) = (0, 0);
        for ino in files {
            let held = open.get(ino).unwrap_or(&0) + engine.inflight(*ino);
            if let Some(File::Socket { embryos: more, .. }) = engine.file(*ino) {
                embryos += more;
                waiting += engine.refs(*ino) - held;
            } else {
                assert_eq!(engine.refs(*ino), held, "{ino}");
            }
        }
        // Only a backlog holds a socket beside tables and queues.
        assert_eq!(waiting, embryos);
    }
}

fn is_listener(file: Option<File>) -> bool {
    let listening = State::Listening;
    matches!(file, Some(File::Socket { state, .. }) if state == listening)
}

/// Asserts that the peer of a connected socket is connected to it. A datagram socket has none.
fn compare_peers(engine: &Engine, ino: Ino) {
    let peer_of = |ino| match engine.file(ino) {
        Some(File::Socket {
            kind: SockType::Stream | SockType::Seqpacket,
            state: State::Connected(peer),
            ..
        }) => Some(peer),
        _ => None,
    };
    if let Some(peer) = peer_of(ino) {
        assert_eq!(peer_of(peer), Some(ino));
    }
}

/// Makes this many calls, and returns how many were done.
fn walk_on(walk: &mut Walk, calls: usize) -> usize {
    let mut done = 0;
    for call in 0..calls {
        match walk.step() {
            Ok(()) => done += 1,
            Err(error) => assert!(!matches!(error, Errno::ENOENGINE | Errno::EDIFFERS)),
        }
        walk.take_released();
        if call % 50 == 0 {
            walk.compare();
        }
    }
    done
}

#[test]
fn walks_agree_with_themselves_and_hand_each_value_back_once() -> Result<(), Errno> {
    let mut done = 0;
    for seed in 0..20 {
        let mut walk = Walk::new(seed)?;
        done += walk_on(&mut walk, 2_000);
        while let Some(pid) = walk.pids.pop() {
            walk.engine.exit(pid)?;
        }
        // The last pass may still run.
        while let Ok(None) = walk.engine.slice(8) {}
        walk.engine.pass()?;
        walk.take_released();
        walk.compare();
        assert_eq!(walk.engine.engine().live(), 0);
        assert_eq!(walk.handed_back.len() as u64, walk.opened);
    }
    assert!(done > 20_000, "{done} of 40,000 calls were done");
    Ok(())
}
