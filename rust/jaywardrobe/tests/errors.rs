//! Each error comes where it is due, and says what it is.
use jaywardrobe::{Engine, Errno, Fd, MAX_BYTES, MAX_FDS, MAX_FILES, MAX_INFLIGHT, MAX_MESSAGES};
use jaywardrobe::{MAX_NOFILE, MAX_PROCESSES, Pid, SockType};
use std::error::Error;
use std::io::{self, ErrorKind};
use std::net::Shutdown;

/// An engine with a process that may have as many descriptors as any.
fn engine_with_process() -> Result<(Engine, Pid), Errno> {
    let mut engine = Engine::new()?;
    let pid = engine.spawn(1000, MAX_NOFILE, false)?;
    Ok((engine, pid))
}

#[test]
fn processes_and_descriptors_are_looked_up() -> Result<(), Errno> {
    let (mut engine, pid) = engine_with_process()?;
    let file = engine.open(pid)?;
    assert_eq!(engine.open(Pid(7)), Err(Errno::ESRCH));
    assert_eq!(engine.close(pid, Fd(5)), Err(Errno::EBADF));
    assert_eq!(engine.dup2(pid, file, Fd(MAX_NOFILE)), Err(Errno::EBADF));
    assert_eq!(engine.send(pid, file, "x", &[]), Err(Errno::ENOTSOCK));
    assert_eq!(engine.poll(pid, Fd(5)), Err(Errno::EBADF));
    let both = Shutdown::Both;
    assert_eq!(engine.shutdown(Pid(7), file, both), Err(Errno::ESRCH));
    assert_eq!(engine.shutdown(pid, Fd(5), both), Err(Errno::EBADF));
    assert_eq!(engine.shutdown(pid, file, both), Err(Errno::ENOTSOCK));
    assert_eq!(engine.limit(pid, MAX_NOFILE + 1), Err(Errno::ERANGE));
    Ok(())
}

#[test]
fn tables_files_and_processes_are_limited() -> Result<(), Errno> {
    let (mut engine, pid) = engine_with_process()?;
    engine.limit(pid, 1)?;
    engine.open(pid)?;
    assert_eq!(engine.open(pid), Err(Errno::EMFILE));
    engine.exit(pid)?;
    for _ in 0..MAX_FILES / MAX_NOFILE as usize {
        let pid = engine.spawn(1000, MAX_NOFILE, false)?;
        for _ in 0..MAX_NOFILE {
            engine.open(pid)?;
        }
    }
    let late = engine.spawn(1000, MAX_NOFILE, false)?;
    assert_eq!(engine.open(late), Err(Errno::ENFILE));
    for _ in MAX_FILES / MAX_NOFILE as usize + 1..MAX_PROCESSES {
        engine.spawn(1000, 0, false)?;
    }
    assert_eq!(engine.spawn(1000, 0, false), Err(Errno::EAGAIN));
    assert_eq!(engine.fork(late), Err(Errno::EAGAIN));
    Ok(())
}

#[test]
fn messages_and_queues_are_limited() -> Result<(), Errno> {
    let (mut engine, pid) = engine_with_process()?;
    let (here, there) = engine.pair(pid, SockType::Seqpacket)?;
    assert_eq!(engine.send(pid, here, "", &[]), Err(Errno::EINVAL));
    let long = vec![0; MAX_BYTES + 1];
    assert_eq!(engine.send(pid, here, &long, &[]), Err(Errno::EMSGSIZE));
    let many = [here; MAX_FDS + 1];
    assert_eq!(engine.send(pid, here, "x", &many), Err(Errno::EINVAL));
    for _ in 0..MAX_MESSAGES {
        assert_eq!(engine.send(pid, here, "x", &[]), Ok(1));
    }
    assert_eq!(engine.send(pid, here, "x", &[]), Err(Errno::EAGAIN));
    let empty = engine.recv(pid, here, &mut [0], &mut []);
    assert_eq!(empty, Err(Errno::EAGAIN));
    engine.close(pid, there)?;
    assert_eq!(engine.send(pid, here, "x", &[]), Err(Errno::EPIPE));
    Ok(())
}

#[test]
fn descriptors_in_flight_are_limited() -> Result<(), Errno> {
    let (mut engine, pid) = engine_with_process()?;
    engine.limit(pid, 4)?;
    let (here, _) = engine.pair(pid, SockType::Seqpacket)?;
    engine.send(pid, here, "x", &[here; 5])?;
    let refused = engine.send(pid, here, "x", &[here]);
    assert_eq!(refused, Err(Errno::ETOOMANYREFS));

    let root = engine.spawn(0, MAX_NOFILE, true)?;
    let mut out = engine.pair(root, SockType::Seqpacket)?.0;
    while engine.total() < MAX_INFLIGHT as u64 {
        let room = (MAX_INFLIGHT as u64 - engine.total()).min(MAX_FDS as u64);
        match engine.send(root, out, "x", &vec![out; room as usize]) {
            Err(Errno::EAGAIN) => out = engine.pair(root, SockType::Seqpacket)?.0,
            sent => assert_eq!(sent, Ok(1)),
        }
    }
    let (out, _) = engine.pair(root, SockType::Seqpacket)?;
    assert_eq!(engine.send(root, out, "x", &[out]), Err(Errno::ENOBUFS));
    Ok(())
}

#[test]
fn connections_need_a_listener_of_the_same_type() -> Result<(), Errno> {
    let (mut engine, pid) = engine_with_process()?;
    let listener = engine.socket(pid, SockType::Stream)?;
    let client = engine.socket(pid, SockType::Stream)?;
    let packets = engine.socket(pid, SockType::Seqpacket)?;
    assert_eq!(engine.bind(pid, listener, "a b"), Err(Errno::EINVAL));
    engine.bind(pid, listener, "name")?;
    assert_eq!(engine.bind(pid, client, "name"), Err(Errno::EADDRINUSE));
    let refused = engine.connect(pid, client, "name");
    assert_eq!(refused, Err(Errno::ECONNREFUSED));
    assert_eq!(engine.listen(pid, listener, 0), Err(Errno::EINVAL));
    engine.listen(pid, listener, 1)?;
    assert_eq!(engine.accept(pid, listener), Err(Errno::EAGAIN));
    let refused = engine.connect(pid, packets, "name");
    assert_eq!(refused, Err(Errno::EPROTOTYPE));
    assert_eq!(engine.send(pid, client, "x", &[]), Err(Errno::ENOTCONN));
    engine.connect(pid, client, "name")?;
    assert_eq!(engine.connect(pid, client, "name"), Err(Errno::EISCONN));
    Ok(())
}

#[test]
fn datagram_sockets_have_no_listeners_and_others_no_targets() -> Result<(), Errno> {
    let (mut engine, pid) = engine_with_process()?;
    let mail = engine.socket(pid, SockType::Dgram)?;
    engine.bind(pid, mail, "mail")?;
    assert_eq!(engine.listen(pid, mail, 1), Err(Errno::EOPNOTSUPP));
    assert_eq!(engine.accept(pid, mail), Err(Errno::EOPNOTSUPP));
    assert_eq!(engine.send(pid, mail, "x", &[]), Err(Errno::ENOTCONN));
    let stream = engine.socket(pid, SockType::Stream)?;
    // The names are of another set.
    engine.bind(pid, stream, "mail")?;
    engine.listen(pid, stream, 1)?;
    assert_eq!(engine.unconnect(pid, stream), Err(Errno::EINVAL));
    assert_eq!(engine.unconnect(pid, Fd(9)), Err(Errno::EBADF));
    assert_eq!(engine.connect(pid, mail, "none"), Err(Errno::ECONNREFUSED));
    Ok(())
}

#[test]
fn one_pass_runs_at_a_time() -> Result<(), Errno> {
    let (mut engine, _) = engine_with_process()?;
    assert_eq!(engine.slice(1), Err(Errno::EIDLE));
    engine.begin()?;
    assert_eq!(engine.begin(), Err(Errno::EBUSY));
    assert_eq!(engine.pass(), Err(Errno::EBUSY));
    assert_eq!(engine.slice(0), Err(Errno::EINVAL));
    Ok(())
}

#[test]
fn an_error_names_itself() {
    let text = "ENOTSOCK: the file is no socket";
    assert_eq!(Errno::ENOTSOCK.to_string(), text);
    let boxed: Box<dyn Error + Send + Sync> = Errno::ENOTSOCK.into();
    assert_eq!(boxed.to_string(), text);
}

#[test]
fn an_error_becomes_that_of_the_system() {
    for (error, kind) in [
        (Errno::EAGAIN, ErrorKind::WouldBlock),
        (Errno::EINVAL, ErrorKind::InvalidInput),
        (Errno::ENOTCONN, ErrorKind::NotConnected),
        (Errno::EPIPE, ErrorKind::BrokenPipe),
        (Errno::EADDRINUSE, ErrorKind::AddrInUse),
        (Errno::ECONNREFUSED, ErrorKind::ConnectionRefused),
        (Errno::ENOMEM, ErrorKind::OutOfMemory),
        (Errno::EBUSY, ErrorKind::ResourceBusy),
        (Errno::EIDLE, ErrorKind::Other),
    ] {
        assert_eq!(io::Error::from(error).kind(), kind, "{error}");
    }
    for (error, text) in [
        (Errno::EBADF, "Bad file descriptor"),
        (Errno::ENOTSOCK, "Socket operation on non-socket"),
        (Errno::EMFILE, "Too many open files"),
        (Errno::ENFILE, "Too many open files in system"),
        (Errno::EMSGSIZE, "Message too long"),
        (Errno::ETOOMANYREFS, "Too many references: cannot splice"),
        (Errno::ENOBUFS, "No buffer space available"),
        (Errno::EISCONN, "Transport endpoint is already connected"),
        (Errno::EPROTOTYPE, "Protocol wrong type for socket"),
        (Errno::ESRCH, "No such process"),
        (Errno::ERANGE, "Numerical result out of range"),
    ] {
        let said = io::Error::from(error).to_string();
        assert!(said.starts_with(&format!("{text} (os error ")), "{said}");
    }
}
