//! An in-memory AF_UNIX layer that keeps exact account of the descriptors inside messages
//! (SCM_RIGHTS), and collects cycles of sockets that only refer to each other.
//!
//! An [`Engine`] has processes, tables, sockets and queues of its own, and touches nothing outside:
//! no descriptor of the program, no file, no clock. A program tells it what its processes do, and
//! asks it what to answer.
//!
//! - [`Engine`] has the calls of the C library, whose types owe what a C program owes by hand.
//! - [`Owned`] also keeps a value behind each plain file, and hands it back once the file is freed.
//! - [`Shared`] is an engine that threads share, behind a lock.
//!
//! # Examples
//!
//! A socket in its own queue is a leak that no reference count finds:
//!
//! ```
//! use jaywardrobe::{Engine, Errno, SockType};
//!
//! let mut engine = Engine::new()?;
//! let pid = engine.spawn(1000, 16, false)?;
//! let (here, there) = engine.pair(pid, SockType::Seqpacket)?;
//! engine.send(pid, here, "keep yourself", &[there])?;
//! engine.close(pid, here)?;
//! engine.close(pid, there)?;
//!
//! // No descriptor is open, and one file is live.
//! let checked = engine.check()?;
//! assert_eq!((checked.live, checked.garbage), (1, 1));
//! assert_eq!(engine.pass()?.reclaimed, 1);
//! assert_eq!(engine.live(), 0);
//! # Ok::<(), Errno>(())
//! ```
#![deny(unsafe_code)]

mod engine;
mod errno;
#[allow(unsafe_code)]
mod handle;
mod limits;
mod owned;
mod shared;
mod types;
mod version;
mod views;

pub use engine::Engine;
pub use errno::Errno;
pub use limits::*;
pub use owned::{OpenError, Owned};
pub use shared::Shared;
pub use types::{Checked, Fd, File, Finished, Ino, Pid, Ready, Received, SockType, State};
pub use version::{Version, version};
pub use views::{Descriptors, Files};
