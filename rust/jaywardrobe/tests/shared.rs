//! Threads can use one engine.
use jaywardrobe::{Engine, Errno, Fd, Pid, Shared, SockType};
use std::panic::{AssertUnwindSafe, catch_unwind};
use std::sync::atomic::{AtomicBool, Ordering};
use std::thread;

const WORKERS: u32 = 4;
const ROUNDS: u32 = 2_000;

/// Sends a file around, and loses a socket in its own queue.
fn work_once(shared: &Shared, pid: Pid) -> Result<(), Errno> {
    let (here, there) = shared.lock().pair(pid, SockType::Seqpacket)?;
    let file = shared.lock().open(pid)?;
    shared.lock().send(pid, here, "take this", &[file])?;
    shared.lock().close(pid, file)?;
    let mut fds = [Fd(0)];
    let got = shared.lock().recv(pid, there, &mut [0; 16], &mut fds)?;
    assert_eq!(got.map(|got| (got.bytes, got.fds)), Some((9, 1)));
    shared
        .lock()
        .send(pid, here, "lose this", &[there, fds[0]])?;
    for fd in [fds[0], there, here] {
        shared.lock().close(pid, fd)?;
    }
    Ok(())
}

#[test]
fn workers_pass_files_beside_a_collector() -> Result<(), Errno> {
    let shared = Shared::new()?;
    let stop = AtomicBool::new(false);
    let reclaimed = thread::scope(|scope| {
        let collector = scope.spawn(|| -> Result<u64, Errno> {
            let mut reclaimed = 0;
            while !stop.load(Ordering::Relaxed) {
                reclaimed += shared.collect(8)?.reclaimed;
            }
            Ok(reclaimed)
        });
        let workers: Vec<_> = (0..WORKERS)
            .map(|uid| {
                let shared = shared.clone();
                scope.spawn(move || -> Result<(), Errno> {
                    let pid = shared.lock().spawn(uid, 16, true)?;
                    (0..ROUNDS).try_for_each(|_| work_once(&shared, pid))?;
                    shared.lock().exit(pid)
                })
            })
            .collect();
        let done: Result<(), Errno> = workers
            .into_iter()
            .try_for_each(|worker| worker.join().expect("a worker ends"));
        stop.store(true, Ordering::Relaxed);
        let reclaimed = collector.join().expect("the collector ends")?;
        done.map(|()| reclaimed)
    })?;
    let last = shared.collect(8)?.reclaimed;
    assert_eq!(reclaimed + last, u64::from(WORKERS * ROUNDS));
    let checked = shared.lock().check()?;
    assert_eq!((checked.live, shared.lock().total()), (0, 0));
    Ok(())
}

#[test]
fn a_pass_is_refused_as_its_calls_are() -> Result<(), Errno> {
    let shared = Shared::from(Engine::new()?);
    assert_eq!(shared.collect(0), Err(Errno::EINVAL));
    assert_eq!(shared.collect(65_537), Err(Errno::EINVAL));
    shared.lock().begin()?;
    assert_eq!(shared.collect(1), Err(Errno::EBUSY));
    Ok(())
}

#[test]
fn a_panic_with_the_lock_leaves_the_engine_usable() -> Result<(), Errno> {
    let shared = Shared::new()?;
    let panicked = catch_unwind(AssertUnwindSafe(|| {
        let mut engine = shared.lock();
        engine.spawn(1000, 16, false).expect("memory is ample");
        panic!("with the lock");
    }));
    assert!(panicked.is_err());
    assert_eq!(shared.lock().open(Pid(1)), Ok(Fd(0)));
    Ok(())
}
