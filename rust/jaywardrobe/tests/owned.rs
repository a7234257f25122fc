//! A value comes back once, when its file is freed.
use jaywardrobe::{Errno, Fd, Owned, Pid, SockType};
use std::error::Error;
use std::io;
use std::net::Shutdown;
use std::rc::Rc;

/// An engine with a process that has this limit on descriptors.
fn engine_with(limit: u32) -> Result<(Owned<Rc<str>>, Pid), Errno> {
    let mut owned = Owned::new()?;
    let pid = owned.spawn(1000, limit, false)?;
    Ok((owned, pid))
}

/// Opens a file that carries this text.
fn opened(owned: &mut Owned<Rc<str>>, pid: Pid, text: &str) -> Result<Fd, Errno> {
    Ok(owned.open(pid, text.into())?)
}

/// The texts of the files that were freed, in order.
fn freed(owned: &mut Owned<Rc<str>>) -> Vec<Rc<str>> {
    let mut texts: Vec<_> = std::iter::from_fn(|| owned.take_released()).collect();
    texts.sort();
    texts
}

#[test]
fn a_refused_open_hands_the_value_back() -> Result<(), Errno> {
    let (mut owned, pid) = engine_with(1)?;
    let fd = opened(&mut owned, pid, "first")?;
    let refused = owned.open(pid, "second".into()).unwrap_err();
    assert_eq!((refused.errno, &*refused.value), (Errno::EMFILE, "second"));
    assert_eq!(owned.get(pid, fd).map(|text| &**text), Some("first"));
    assert!(freed(&mut owned).is_empty());
    owned.limit(pid, 2)?;
    opened(&mut owned, pid, "second")?;
    Ok(())
}

#[test]
fn a_refusal_is_an_error_whatever_the_value() -> Result<(), Errno> {
    struct Plain;
    let mut owned = Owned::new()?;
    let refused: Result<Fd, Box<dyn Error>> = owned.open(Pid(1), Plain).map_err(Box::from);
    let refused = refused.unwrap_err();
    assert_eq!(refused.to_string(), "ESRCH: there is no such process");
    assert_eq!(format!("{refused:?}"), "OpenError { errno: ESRCH, .. }");
    Ok(())
}

#[test]
fn a_refusal_becomes_an_error_of_the_system() -> Result<(), Errno> {
    let (mut owned, pid) = engine_with(0)?;
    let refused: io::Error = owned.open(pid, "text".into()).unwrap_err().into();
    assert_eq!(refused.raw_os_error(), Errno::EMFILE.raw_os_error());
    Ok(())
}

#[test]
fn a_value_stays_while_its_file_is_in_flight() -> Result<(), Errno> {
    let (mut owned, pid) = engine_with(8)?;
    let (here, there) = owned.pair(pid, SockType::Seqpacket)?;
    let file = opened(&mut owned, pid, "sent")?;
    owned.send(pid, here, b"x", &[file])?;
    owned.close(pid, file)?;
    assert!(freed(&mut owned).is_empty());
    let mut fds = [Fd(0)];
    // There is no room for the descriptor, so it is dropped, and its file with it.
    owned.recv(pid, there, &mut [0], &mut fds[..0])?;
    assert_eq!(freed(&mut owned), ["sent".into()]);
    assert!(freed(&mut owned).is_empty());
    Ok(())
}

#[test]
fn a_value_stays_in_the_queue_of_a_socket_that_is_shut() -> Result<(), Errno> {
    let (mut owned, pid) = engine_with(8)?;
    let (here, there) = owned.pair(pid, SockType::Stream)?;
    let file = opened(&mut owned, pid, "sent")?;
    owned.send(pid, here, b"x", &[file])?;
    owned.close(pid, file)?;
    owned.shutdown(pid, there, Shutdown::Both)?;
    assert!(freed(&mut owned).is_empty());
    let mut fds = [Fd(0)];
    owned.recv(pid, there, &mut [0], &mut fds)?;
    assert_eq!(owned.get(pid, fds[0]).map(|text| &**text), Some("sent"));
    owned.close(pid, fds[0])?;
    assert_eq!(freed(&mut owned), ["sent".into()]);
    Ok(())
}

#[test]
fn a_file_in_a_cycle_is_freed_by_the_collector() -> Result<(), Errno> {
    let (mut owned, pid) = engine_with(8)?;
    let (one, other) = owned.pair(pid, SockType::Stream)?;
    let low = opened(&mut owned, pid, "low")?;
    let high = opened(&mut owned, pid, "high")?;
    owned.send(pid, one, b"x", &[other, low, high])?;
    owned.exit(pid)?;
    assert!(freed(&mut owned).is_empty());
    owned.pass()?;
    assert_eq!(freed(&mut owned), ["high".into(), "low".into()]);
    assert_eq!(owned.engine().live(), 0);
    Ok(())
}

#[test]
fn values_that_are_left_are_dropped_with_the_engine() -> Result<(), Errno> {
    let (mut owned, pid) = engine_with(8)?;
    let text: Rc<str> = "text".into();
    let first = owned.open(pid, text.clone())?;
    owned.open(pid, text.clone())?;
    owned.close(pid, first)?;
    assert_eq!(Rc::strong_count(&text), 3);
    drop(owned);
    assert_eq!(Rc::strong_count(&text), 1);
    Ok(())
}

#[test]
fn a_value_can_be_changed_behind_its_file() -> Result<(), Errno> {
    let (mut owned, pid) = engine_with(8)?;
    let file = opened(&mut owned, pid, "old")?;
    let other = owned.dup(pid, file)?;
    *owned.get_mut(pid, file).ok_or(Errno::EBADF)? = "new".into();
    assert_eq!(owned.get(pid, other).map(|text| &**text), Some("new"));
    let (socket, _) = owned.pair(pid, SockType::Stream)?;
    assert!(owned.get(pid, socket).is_none());
    Ok(())
}

#[test]
fn readiness_is_told_whatever_was_taken_before() -> Result<(), Errno> {
    let mut owned: Owned<Rc<str>> = Owned::with_readiness()?;
    let pid = owned.spawn(1000, 8, false)?;
    let (here, there) = owned.pair(pid, SockType::Stream)?;
    assert_eq!(owned.take_changed().len(), 2);
    assert!(owned.take_changed().is_empty());
    let file = opened(&mut owned, pid, "sent")?;
    owned.send(pid, here, b"x", &[file])?;
    assert!(freed(&mut owned).is_empty());
    assert_eq!(
        owned.take_changed(),
        [owned.engine().ino_at(pid, there).unwrap()]
    );
    owned.send(pid, here, b"x", &[])?;
    owned.close(pid, file)?;
    assert!(freed(&mut owned).is_empty());
    owned.close(pid, there)?;
    assert_eq!(freed(&mut owned), ["sent".into()]);
    // The other socket changed too, before it was freed.
    assert_eq!(
        owned.take_changed(),
        [owned.engine().ino_at(pid, here).unwrap()]
    );
    Ok(())
}
