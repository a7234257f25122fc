//! An engine that threads share.
use crate::{Engine, Errno, Finished, MAX_BUDGET};
use std::sync::{Arc, Mutex, MutexGuard, PoisonError};
use std::thread;

/// An engine behind a lock. Clones are handles of the same engine, one for each thread.
///
/// # Examples
///
/// ```
/// use jaywardrobe::{Errno, Shared, SockType};
/// use std::thread;
///
/// let shared = Shared::new()?;
/// let workers = [1000, 1001, 1002].map(|uid| {
///     let shared = shared.clone();
///     thread::spawn(move || -> Result<(), Errno> {
///         let pid = shared.lock().spawn(uid, 16, false)?;
///         let (here, there) = shared.lock().pair(pid, SockType::Stream)?;
///         // The socket is lost in its own queue.
///         shared.lock().send(pid, here, "me", &[there])?;
///         shared.lock().exit(pid)
///     })
/// });
/// for worker in workers {
///     worker.join().expect("no worker panics")?;
/// }
/// assert_eq!(shared.collect(8)?.reclaimed, 3);
/// assert_eq!(shared.lock().live(), 0);
/// # Ok::<(), Errno>(())
/// ```
#[derive(Clone, Debug)]
pub struct Shared(Arc<Mutex<Engine>>);

impl Shared {
    /// Creates an engine to which nothing has happened.
    ///
    /// # Errors
    ///
    /// ENOMEM.
    pub fn new() -> Result<Shared, Errno> {
        Engine::new().map(Shared::from)
    }

    /// Waits for the lock, and returns the engine. A thread that panicked with the lock has left
    /// the engine as its last call did, so a poisoned lock is no obstacle.
    pub fn lock(&self) -> MutexGuard<'_, Engine> {
        self.0.lock().unwrap_or_else(PoisonError::into_inner)
    }

    /// Does a pass in slices of this budget, and leaves the lock to other threads between them.
    ///
    /// # Errors
    ///
    /// EINVAL for the budget, EBUSY; EIDLE once another thread has ended the pass.
    pub fn collect(&self, budget: u32) -> Result<Finished, Errno> {
        if budget == 0 || budget > MAX_BUDGET {
            return Err(Errno::EINVAL);
        }
        self.lock().begin()?;
        loop {
            if let Some(finished) = self.lock().slice(budget)? {
                return Ok(finished);
            }
            // Without this, a waiting thread often loses the lock to this one again.
            thread::yield_now();
        }
    }
}

impl From<Engine> for Shared {
    fn from(engine: Engine) -> Shared {
        Shared(Arc::new(Mutex::new(engine)))
    }
}
