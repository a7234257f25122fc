//! The sandbox of `examples/c/sandbox.c`, in Rust: it prints the same.
use jaywardrobe::{Engine, Errno, Fd, Pid, SockType};

const ROUNDS: usize = 3;
const CYCLES: usize = 4;
const BUDGET: u32 = 3;

fn show(when: &str, engine: &Engine) {
    let (live, total) = (engine.live(), engine.total());
    println!("{when:<24} live {live}, in flight {total}");
}

/// The server's socket, which listens under this name.
fn listener(engine: &mut Engine, server: Pid, name: &str) -> Result<Fd, Errno> {
    let fd = engine.socket(server, SockType::Seqpacket)?;
    engine.bind(server, fd, name)?;
    engine.listen(server, fd, 8)?;
    Ok(fd)
}

/// The client's socket, connected to that name.
fn connected(engine: &mut Engine, client: Pid, name: &str) -> Result<Fd, Errno> {
    let fd = engine.socket(client, SockType::Seqpacket)?;
    engine.connect(client, fd, name)?;
    Ok(fd)
}

/// The client opens a file, sends it with a request, and closes its own descriptor.
fn request(engine: &mut Engine, client: Pid, on: Fd, text: &str) -> Result<(), Errno> {
    let file = engine.open(client)?;
    engine.send(client, on, text, &[file])?;
    engine.close(client, file)
}

/// The server looks whether a request waits, and then receives it, and has its file.
fn serve(engine: &mut Engine, server: Pid, on: Fd) -> Result<(), Errno> {
    let (mut text, mut files) = ([0; 32], [Fd(0); 4]);
    if engine.peek(server, on, &mut text, &mut [])?.is_none() {
        println!("server: the client is gone");
        return Ok(());
    }
    if let Some(got) = engine.recv(server, on, &mut text, &mut files)? {
        let text = String::from_utf8_lossy(&text[..got.bytes]);
        println!("server: \"{text}\", file at {}", files[0]);
    }
    Ok(())
}

/// Two sockets, each in the other's queue, and no descriptor for either.
fn leak_a_cycle(engine: &mut Engine, pid: Pid) -> Result<(), Errno> {
    let (first, second) = engine.pair(pid, SockType::Stream)?;
    engine.send(pid, first, "me", &[first])?;
    engine.send(pid, second, "me", &[second])?;
    engine.close(pid, first)?;
    engine.close(pid, second)
}

/// A pass in slices, with a request between two of them.
fn collect(
    engine: &mut Engine,
    (client, out): (Pid, Fd),
    (server, input): (Pid, Fd),
) -> Result<(), Errno> {
    engine.begin()?;
    for slices in 1.. {
        if let Some(finished) = engine.slice(BUDGET)? {
            let (pass, reclaimed) = (finished.pass, finished.reclaimed);
            let how = if slices > 2 {
                "several slices"
            } else {
                "few slices"
            };
            println!("pass {pass}: {how}, reclaimed {reclaimed}");
            break;
        }
        if slices == 2 {
            request(engine, client, out, "between slices")?;
            serve(engine, server, input)?;
        }
    }
    Ok(())
}

fn main() -> Result<(), Errno> {
    let mut engine = Engine::new()?;
    let server = engine.spawn(1, 64, false)?;
    let client = engine.spawn(2, 64, false)?;
    let waits = listener(&mut engine, server, "files")?;
    let out = connected(&mut engine, client, "files")?;
    let input = engine.accept(server, waits)?;
    engine.limit(client, 16)?;
    show("connected", &engine);

    for _ in 0..ROUNDS {
        request(&mut engine, client, out, "keep this")?;
    }
    show("three requests sent", &engine);
    for _ in 0..ROUNDS {
        serve(&mut engine, server, input)?;
    }
    show("three requests served", &engine);

    for _ in 0..CYCLES {
        leak_a_cycle(&mut engine, client)?;
    }
    show("four cycles leaked", &engine);
    let checked = engine.check()?;
    println!(
        "check: {} live, {} of them garbage",
        checked.live, checked.garbage
    );
    collect(&mut engine, (client, out), (server, input))?;
    show("collected", &engine);

    engine.exit(client)?;
    serve(&mut engine, server, input)?;
    engine.exit(server)?;
    show("all processes gone", &engine);
    Ok(())
}
