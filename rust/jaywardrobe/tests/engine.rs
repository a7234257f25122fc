//! Each call of an engine does what it says.
use jaywardrobe::{
    Engine, Errno, Fd, File, Ino, MAX_FDS, Pid, Ready, Received, SockType, State, version,
};
use std::net::Shutdown;

/// An engine with a process that may have 16 descriptors.
fn engine_with_process() -> Result<(Engine, Pid), Errno> {
    let mut engine = Engine::new()?;
    let pid = engine.spawn(1000, 16, false)?;
    Ok((engine, pid))
}

/// The open descriptors of a process.
fn open_descriptors(engine: &Engine, pid: Pid) -> Vec<Fd> {
    engine.descriptors(pid).map(|(fd, _)| fd).collect()
}

/// The inode number of an open descriptor.
fn ino(engine: &Engine, pid: Pid, fd: Fd) -> Ino {
    engine.ino_at(pid, fd).expect("the descriptor is open")
}

#[test]
fn processes_get_rising_pids_and_copies_of_tables() -> Result<(), Errno> {
    let (mut engine, parent) = engine_with_process()?;
    let file = engine.open(parent)?;
    let next = engine.next_pid();
    let child = engine.fork(parent)?;
    assert_eq!((parent, child), (Pid(1), next));
    assert_eq!(ino(&engine, child, file), ino(&engine, parent, file));
    engine.exit(parent)?;
    assert_eq!(engine.ino_at(parent, file), None);
    assert_eq!(engine.refs(ino(&engine, child, file)), 1);
    engine.exit(child)?;
    assert_eq!(engine.live(), 0);
    Ok(())
}

#[test]
fn descriptors_are_the_lowest_or_the_wanted_ones() -> Result<(), Errno> {
    let (mut engine, pid) = engine_with_process()?;
    let file = engine.open(pid)?;
    assert_eq!((file, engine.dup(pid, file)?), (Fd(0), Fd(1)));
    assert_eq!(engine.dup2(pid, file, Fd(7))?, Fd(7));
    engine.close(pid, file)?;
    assert_eq!(open_descriptors(&engine, pid), [Fd(1), Fd(7)]);
    let other = engine.open(pid)?;
    assert_eq!(engine.dup2(pid, Fd(7), other)?, other);
    assert_eq!(engine.live(), 1);
    assert_eq!(engine.refs(ino(&engine, pid, other)), 3);
    engine.limit(pid, 3)?;
    assert_eq!(engine.open(pid), Ok(Fd(2)));
    assert_eq!(engine.open(pid), Err(Errno::EMFILE));
    assert_eq!(open_descriptors(&engine, pid), [0, 1, 2, 7].map(Fd));
    assert_eq!(open_descriptors(&engine, Pid(9)), []);
    Ok(())
}

#[test]
fn a_stream_has_no_borders_and_a_packet_has() -> Result<(), Errno> {
    for (kind, first, second) in [
        (SockType::Stream, &b"abc"[..], &b"d"[..]),
        (SockType::Seqpacket, &b"ab"[..], &b"cd"[..]),
        (SockType::Dgram, &b"ab"[..], &b"cd"[..]),
    ] {
        let (mut engine, pid) = engine_with_process()?;
        let (here, there) = engine.pair(pid, kind)?;
        engine.send(pid, here, "ab", &[])?;
        engine.send(pid, here, "cd", &[])?;
        for wanted in [first, second] {
            let mut bytes = [0; 3];
            let got = engine.recv(pid, there, &mut bytes, &mut [])?;
            let got = got.expect("a message waits");
            assert_eq!(&bytes[..got.bytes], wanted, "{kind:?}");
        }
    }
    Ok(())
}

#[test]
fn a_peek_installs_what_stays_in_the_queue() -> Result<(), Errno> {
    let (mut engine, pid) = engine_with_process()?;
    let (here, there) = engine.pair(pid, SockType::Seqpacket)?;
    let file = engine.open(pid)?;
    let sent = ino(&engine, pid, file);
    engine.send(pid, here, "abc", &[file, file])?;
    engine.close(pid, file)?;
    let (mut bytes, mut fds) = ([0; 8], [Fd(99); 4]);
    let whole = Received {
        bytes: 3,
        fds: 2,
        trunc: false,
        ctrunc: false,
    };
    assert_eq!(engine.peek(pid, there, &mut bytes, &mut fds)?, Some(whole));
    assert_eq!(fds, [Fd(2), Fd(3), Fd(99), Fd(99)]);
    assert_eq!((engine.refs(sent), engine.inflight(sent)), (4, 2));
    assert_eq!((engine.charged(1000), engine.total()), (2, 2));
    assert_eq!(engine.recv(pid, there, &mut bytes, &mut fds)?, Some(whole));
    assert_eq!(&bytes[..3], b"abc");
    assert_eq!((engine.refs(sent), engine.inflight(sent)), (4, 0));
    assert_eq!((engine.charged(1000), engine.total()), (0, 0));
    Ok(())
}

#[test]
fn what_does_not_fit_is_told_and_dropped() -> Result<(), Errno> {
    let (mut engine, pid) = engine_with_process()?;
    let (here, there) = engine.pair(pid, SockType::Seqpacket)?;
    let file = engine.open(pid)?;
    engine.send(pid, here, "abc", &[file])?;
    let got = engine.recv(pid, there, &mut [0; 3], &mut [])?;
    assert_eq!(got.map(|got| (got.trunc, got.ctrunc)), Some((false, true)));
    engine.send(pid, here, "abc", &[file; MAX_FDS])?;
    assert_eq!(engine.total(), MAX_FDS as u64);
    let mut fds = [Fd(0); MAX_FDS];
    let got = engine.recv(pid, there, &mut [0; 2], &mut fds)?;
    let cut = Received {
        bytes: 2,
        fds: 13,
        trunc: true,
        ctrunc: true,
    };
    assert_eq!(got, Some(cut));
    assert_eq!(
        fds[..13],
        [3, 4, 5, 6, 7, 8, 9, 10, 11, 12, 13, 14, 15].map(Fd)
    );
    assert_eq!(engine.total(), 0);
    Ok(())
}

#[test]
fn a_connection_waits_to_be_accepted() -> Result<(), Errno> {
    let (mut engine, pid) = engine_with_process()?;
    let listener = engine.socket(pid, SockType::Stream)?;
    let client = engine.socket(pid, SockType::Stream)?;
    engine.bind(pid, listener, b"a.name")?;
    engine.listen(pid, listener, 1)?;
    engine.connect(pid, client, String::from("a.name"))?;
    let waits = engine.file(ino(&engine, pid, listener));
    let server = engine.accept(pid, listener)?;
    let socket = |state, embryos| {
        Some(File::Socket {
            kind: SockType::Stream,
            state,
            messages: 0,
            embryos,
        })
    };
    assert_eq!(waits, socket(State::Listening, 1));
    let (near, far) = (ino(&engine, pid, client), ino(&engine, pid, server));
    assert_eq!(engine.file(near), socket(State::Connected(far), 0));
    assert_eq!(engine.file(far), socket(State::Connected(near), 0));
    let name = engine.name(ino(&engine, pid, listener));
    assert_eq!(name.as_deref(), Some("a.name"));
    assert_eq!(engine.name(near), None);
    Ok(())
}

#[test]
fn a_file_is_told_by_kind_and_state() -> Result<(), Errno> {
    let (mut engine, pid) = engine_with_process()?;
    let plain = engine.open(pid)?;
    let idle = engine.socket(pid, SockType::Seqpacket)?;
    let (here, there) = engine.pair(pid, SockType::Stream)?;
    engine.send(pid, there, "x", &[])?;
    engine.close(pid, there)?;
    assert_eq!(engine.file(ino(&engine, pid, plain)), Some(File::Plain));
    let state = |fd| match engine.file(ino(&engine, pid, fd)) {
        Some(File::Socket {
            state, messages, ..
        }) => (state, messages),
        other => panic!("no socket: {other:?}"),
    };
    assert_eq!(state(idle), (State::Idle, 0));
    assert_eq!(state(here), (State::HungUp, 1));
    assert_eq!(engine.file(Ino(99)), None);
    let files: Vec<Ino> = engine.files().collect();
    assert_eq!(files, [plain, idle, here].map(|fd| ino(&engine, pid, fd)));
    Ok(())
}

#[test]
fn readiness_follows_the_queue_and_the_peer() -> Result<(), Errno> {
    let (mut engine, pid) = engine_with_process()?;
    let (here, there) = engine.pair(pid, SockType::Seqpacket)?;
    let ready = |readable, writable, hung_up| Ready {
        readable,
        writable,
        hung_up,
    };
    assert_eq!(engine.poll(pid, there)?, ready(false, true, false));
    while engine.send(pid, here, "x", &[]).is_ok() {}
    assert_eq!(engine.poll(pid, there)?, ready(true, true, false));
    assert_eq!(engine.poll(pid, here)?, ready(false, false, false));
    engine.close(pid, there)?;
    assert!(engine.poll(pid, here)?.hung_up);
    Ok(())
}

/// Whether a socket is readable, writable and hung up.
fn readiness(engine: &Engine, pid: Pid, on: Fd) -> Result<(bool, bool, bool), Errno> {
    let ready = engine.poll(pid, on)?;
    Ok((ready.readable, ready.writable, ready.hung_up))
}

#[test]
fn a_shutdown_closes_an_end_and_the_peers_other_one() -> Result<(), Errno> {
    for kind in [SockType::Stream, SockType::Seqpacket] {
        let (mut engine, pid) = engine_with_process()?;
        let (here, there) = engine.pair(pid, kind)?;
        engine.send(pid, there, "left", &[])?;
        // It is the same as if the peer had closed its output.
        engine.shutdown(pid, here, Shutdown::Read)?;
        let refused = engine.send(pid, there, "more", &[]);
        assert_eq!(refused, Err(Errno::EPIPE), "{kind:?}");
        let mut bytes = [0; 8];
        let got = engine.recv(pid, here, &mut bytes, &mut [])?;
        assert_eq!(got.map(|got| got.bytes), Some(4));
        assert_eq!(engine.recv(pid, here, &mut bytes, &mut [])?, None);
        assert_eq!(engine.peek(pid, here, &mut bytes, &mut [])?, None);
        assert_eq!(readiness(&engine, pid, here)?, (true, true, false));
        assert_eq!(readiness(&engine, pid, there)?, (false, false, false));
        engine.shutdown(pid, there, Shutdown::Both)?;
        assert_eq!(engine.send(pid, here, "x", &[]), Err(Errno::EPIPE));
        for end in [here, there] {
            assert_eq!(readiness(&engine, pid, end)?, (true, false, true));
        }
    }
    Ok(())
}

#[test]
fn a_listener_that_is_shut_refuses_connections() -> Result<(), Errno> {
    let (mut engine, pid) = engine_with_process()?;
    let listener = engine.socket(pid, SockType::Stream)?;
    engine.bind(pid, listener, "name")?;
    engine.listen(pid, listener, 4)?;
    let early = engine.socket(pid, SockType::Stream)?;
    let late = engine.socket(pid, SockType::Stream)?;
    engine.shutdown(pid, late, Shutdown::Write)?;
    engine.shutdown(pid, listener, Shutdown::Write)?;
    engine.connect(pid, early, "name")?;
    engine.shutdown(pid, listener, Shutdown::Read)?;
    let refused = engine.connect(pid, late, "name");
    assert_eq!(refused, Err(Errno::ECONNREFUSED));
    let server = engine.accept(pid, listener)?;
    assert_eq!(engine.accept(pid, listener), Err(Errno::EAGAIN));
    assert_eq!(engine.send(pid, early, "x", &[])?, 1);
    assert!(engine.poll(pid, server)?.readable);
    Ok(())
}

#[test]
fn a_datagram_socket_sends_to_its_target_until_it_is_freed() -> Result<(), Errno> {
    let (mut engine, pid) = engine_with_process()?;
    let log = engine.socket(pid, SockType::Dgram)?;
    let here = engine.socket(pid, SockType::Dgram)?;
    engine.bind(pid, log, "log")?;
    assert_eq!(readiness(&engine, pid, here)?, (false, true, false));
    engine.connect(pid, here, "log")?;
    let target = ino(&engine, pid, log);
    let sends = File::Socket {
        kind: SockType::Dgram,
        state: State::Connected(target),
        messages: 0,
        embryos: 0,
    };
    assert_eq!(engine.file(ino(&engine, pid, here)), Some(sends));
    for _ in 0..jaywardrobe::MAX_MESSAGES {
        engine.send(pid, here, "x", &[])?;
    }
    assert_eq!(engine.send(pid, here, "x", &[]), Err(Errno::EAGAIN));
    assert_eq!(readiness(&engine, pid, here)?, (false, false, false));
    engine.close(pid, log)?;
    for _ in 0..2 {
        assert_eq!(engine.send(pid, here, "x", &[]), Err(Errno::ECONNREFUSED));
    }
    assert_eq!(engine.file(ino(&engine, pid, here)), Some(sends));
    assert_eq!(readiness(&engine, pid, here)?, (false, true, false));
    Ok(())
}

#[test]
fn a_datagram_socket_that_turns_to_another_loses_what_waits() -> Result<(), Errno> {
    let (mut engine, pid) = engine_with_process()?;
    let (here, there) = engine.pair(pid, SockType::Dgram)?;
    engine.bind(pid, here, "here")?;
    engine.send(pid, there, "x", &[there])?;
    let other = engine.socket(pid, SockType::Dgram)?;
    assert_eq!(engine.connect(pid, other, "here"), Err(Errno::EPERM));
    engine.unconnect(pid, here)?;
    assert_eq!(engine.charged(1000), 0);
    engine.connect(pid, other, "here")?;
    engine.send(pid, other, "y", &[])?;
    // It had no target, so nothing is lost.
    engine.connect(pid, here, "here")?;
    let mut bytes = [0; 8];
    let got = engine.recv(pid, here, &mut bytes, &mut [])?;
    assert_eq!(
        got.map(|got| bytes[..got.bytes].to_vec()),
        Some(b"y".to_vec())
    );
    assert_eq!(
        engine.recv(pid, here, &mut bytes, &mut []),
        Err(Errno::EAGAIN)
    );
    Ok(())
}

#[test]
fn the_collector_frees_a_cycle_in_slices() -> Result<(), Errno> {
    let (mut engine, pid) = engine_with_process()?;
    for _ in 0..5 {
        let (one, other) = engine.pair(pid, SockType::Stream)?;
        engine.send(pid, one, "x", &[one])?;
        engine.send(pid, other, "x", &[other])?;
        engine.close(pid, one)?;
        engine.close(pid, other)?;
    }
    let checked = engine.check()?;
    assert_eq!((checked.live, checked.garbage), (10, 10));
    assert_eq!(engine.begin()?, 1);
    let finished = (1..).find_map(|slice| engine.slice(1).transpose().map(|it| (slice, it)));
    let (slices, finished) = finished.expect("the pass ends");
    let finished = finished?;
    assert!((10..=31).contains(&slices), "{slices} slices");
    assert_eq!((finished.pass, finished.reclaimed), (1, 10));
    assert_eq!((engine.live(), engine.pass()?.pass), (0, 2));
    Ok(())
}

#[test]
fn freed_files_and_changed_sockets_are_listed_once_asked_for() -> Result<(), Errno> {
    let (mut engine, pid) = engine_with_process()?;
    let file = engine.open(pid)?;
    engine.close(pid, file)?;
    assert_eq!(engine.released(), []);
    engine.tell_released()?;
    let (here, there) = engine.pair(pid, SockType::Stream)?;
    assert_eq!(engine.changed(), []);
    engine.tell_changed()?;
    let near = ino(&engine, pid, here);
    engine.send(pid, there, "x", &[])?;
    assert_eq!((engine.released(), engine.changed()), (vec![], vec![near]));
    engine.close(pid, here)?;
    assert_eq!(engine.released(), [near]);
    assert_eq!(engine.changed(), [ino(&engine, pid, there)]);
    engine.clear_told();
    assert_eq!((engine.released(), engine.changed()), (vec![], vec![]));
    Ok(())
}

#[test]
fn a_picture_has_each_file() -> Result<(), Errno> {
    let (mut engine, pid) = engine_with_process()?;
    let empty = engine.graph()?;
    engine.open(pid)?;
    let socket = engine.socket(pid, SockType::Stream)?;
    engine.bind(pid, socket, "a.name")?;
    let picture = engine.graph()?;
    assert!(picture.starts_with("digraph") && picture.trim_end().ends_with('}'));
    assert!(picture.contains("a.name") && !empty.contains("a.name"));
    Ok(())
}

#[test]
fn an_engine_tells_its_counts_for_debugging() -> Result<(), Errno> {
    let (mut engine, pid) = engine_with_process()?;
    let (here, _) = engine.pair(pid, SockType::Stream)?;
    engine.send(pid, here, "x", &[here])?;
    assert_eq!(format!("{engine:?}"), "Engine { live: 2, total: 1, .. }");
    Ok(())
}

#[test]
fn an_engine_goes_on_in_another_thread() -> Result<(), Errno> {
    let (mut engine, pid) = engine_with_process()?;
    let (here, there) = engine.pair(pid, SockType::Stream)?;
    let sender = std::thread::spawn(move || engine.send(pid, here, "x", &[here]).map(|_| engine));
    let mut engine = sender.join().expect("the sender ends")?;
    let got = engine.recv(pid, there, &mut [0], &mut [Fd(0)])?;
    assert_eq!(got.map(|got| got.fds), Some(1));
    Ok(())
}

#[test]
fn the_library_has_the_version_of_the_crate() {
    assert_eq!(version().to_string(), env!("CARGO_PKG_VERSION"));
}
