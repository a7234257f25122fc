//! The program of `examples/c/owned.c`, in Rust: it prints the same. A file carries a descriptor of
//! the host, here one end of a socket pair.
use jaywardrobe::{Fd, Owned, SockType};
use std::error::Error;
use std::io::Read;
use std::os::unix::net::UnixStream;

const BUDGET: u32 = 1;

/// Closes the host's descriptors whose files were freed.
fn close_released(engine: &mut Owned<UnixStream>) {
    while let Some(end) = engine.take_released() {
        drop(end);
    }
}

/// Prints how many files are live, and whether the host's descriptor is open.
fn show(when: &str, engine: &Owned<UnixStream>, mut other_end: &UnixStream) {
    let is_closed = matches!(other_end.read(&mut [0]), Ok(0));
    let state = if is_closed { "closed" } else { "open" };
    let live = engine.engine().live();
    println!("{when:<20} {live} files live, host descriptor {state}");
}

fn main() -> Result<(), Box<dyn Error>> {
    let (other_end, end) = UnixStream::pair()?;
    other_end.set_nonblocking(true)?;
    let mut engine = Owned::new()?;
    let parent = engine.spawn(1000, 64, false)?;
    let (here, there) = engine.pair(parent, SockType::Seqpacket)?;
    let child = engine.fork(parent)?;

    let file = engine.open(parent, end)?;
    show("opened", &engine, &other_end);

    engine.send(parent, here, b"take this", &[file])?;
    engine.exit(parent)?;
    close_released(&mut engine);
    show("in flight", &engine, &other_end);
    let mut fds = [Fd(0)];
    engine.recv(child, there, &mut [0; 16], &mut fds)?;
    show("received", &engine, &other_end);

    // The receiving socket is sent into its own queue.
    engine.send(child, here, b"take this", &[fds[0], there])?;
    engine.exit(child)?;
    close_released(&mut engine);
    show("lost in a cycle", &engine, &other_end);

    engine.begin()?;
    while engine.slice(BUDGET)?.is_none() {}
    close_released(&mut engine);
    show("collected", &engine, &other_end);
    Ok(())
}
