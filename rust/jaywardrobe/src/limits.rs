//! The limits of an engine.
use jaywardrobe_sys as sys;

/// Processes at once.
pub const MAX_PROCESSES: usize = sys::JW_MAX_PROCESSES as usize;
/// The largest limit on descriptors that a process may have (RLIMIT_NOFILE).
pub const MAX_NOFILE: u32 = sys::JW_MAX_NOFILE;
/// Live files.
pub const MAX_FILES: usize = sys::JW_MAX_FILES as usize;
/// Messages in a queue.
pub const MAX_MESSAGES: usize = sys::JW_MAX_MESSAGES as usize;
/// Bytes of a message, and of a receive.
pub const MAX_BYTES: usize = sys::JW_MAX_BYTES as usize;
/// Descriptors of a message (unix(7), SCM_RIGHTS).
pub const MAX_FDS: usize = sys::JW_MAX_FD as usize;
/// Connections that wait at a listener.
pub const MAX_BACKLOG: u32 = sys::JW_MAX_BACKLOG;
/// Descriptors in flight, of all users together.
pub const MAX_INFLIGHT: usize = sys::JW_MAX_INFLIGHT as usize;
/// Bytes of a name.
pub const MAX_NAME: usize = sys::JW_MAX_NAME as usize;
/// The largest budget of a slice, in units. The smallest is 1.
pub const MAX_BUDGET: u32 = sys::JW_MAX_BUDGET;
