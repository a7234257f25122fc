//! The calls of the library on one handle. All unsafe code of the crate is here.
//!
//! The library asks three things of a caller, and each call here meets them:
//!
//! - The pointers of a call are valid, aligned and apart: each is made of a reference or a slice
//!   that the call alone uses.
//! - The handle is written by the calls alone, and not copied: its word is private.
//! - One call at a time is made on a handle: a [`Handle`] is not `Sync`, and no call calls back.
use crate::{Errno, Fd};
use jaywardrobe_sys as sys;
use std::cell::UnsafeCell;

/// Returns the version of the library as one number.
pub(crate) fn version() -> u32 {
    // SAFETY: the call has no inputs, and needs no engine.
    unsafe { sys::jw_version() as u32 }
}

/// A handle that has an engine.
pub(crate) struct Handle {
    // The library writes the word even where it only looks, and puts back what was there.
    word: UnsafeCell<sys::jw_engine>,
}

// SAFETY: an engine is memory from `malloc`, and the library keeps nothing for a thread. A move to
// another thread orders the calls before it and after it.
unsafe impl Send for Handle {}

/// Declares methods for calls that take numbers. They return what the call answers.
macro_rules! calls {
    ($($name:ident = $call:ident($($input:ident: $type:ty),*);)*) => {$(
        pub(crate) fn $name(&self, $($input: $type),*) -> Result<u64, Errno> {
            // SAFETY: the handle is valid, and all other inputs are numbers.
            Errno::check(unsafe { sys::$call(self.word.get(), $($input),*) })
        }
    )*};
}

/// Declares methods for calls that take numbers and write one value. They return what the call
/// answers, and the value.
macro_rules! calls_that_write {
    ($($name:ident = $call:ident($($input:ident: $type:ty),*) -> $out:ty;)*) => {$(
        pub(crate) fn $name(&self, $($input: $type),*) -> Result<(u64, $out), Errno> {
            let mut out = <$out>::default();
            // SAFETY: the handle and `out` are valid, and all other inputs are numbers.
            let answer = unsafe { sys::$call(self.word.get(), $($input,)* &mut out) };
            Errno::check(answer).map(|answer| (answer, out))
        }
    )*};
}

/// Declares methods for calls that write a list of numbers, or its beginning. They return the
/// length of the whole list.
macro_rules! calls_that_list {
    ($($name:ident = $call:ident($($input:ident: $type:ty),*) -> [$item:ty];)*) => {$(
        pub(crate) fn $name(&self, $($input: $type,)* list: &mut [$item]) -> Result<usize, Errno> {
            let (start, length) = (list.as_mut_ptr(), list.len());
            // SAFETY: the handle is valid, `start` points to `length` items, and all other inputs
            // are numbers.
            let answer = unsafe { sys::$call(self.word.get(), $($input,)* start.cast(), length) };
            Errno::check(answer).map(|length| length as usize)
        }
    )*};
}

/// Declares methods for calls that take a name.
macro_rules! calls_with_name {
    ($($name:ident = $call:ident;)*) => {$(
        pub(crate) fn $name(&self, pid: u32, fd: u32, name: &[u8]) -> Result<u64, Errno> {
            let (start, length) = (name.as_ptr().cast(), name.len());
            // SAFETY: the handle is valid, and `start` points to `length` bytes.
            Errno::check(unsafe { sys::$call(self.word.get(), pid, fd, start, length) })
        }
    )*};
}

/// Declares methods for calls that receive into these places. They return how many bytes were
/// written, and the rest of the outcome.
macro_rules! calls_that_receive {
    ($($name:ident = $call:ident;)*) => {$(
        pub(crate) fn $name(
            &self,
            pid: u32,
            fd: u32,
            bytes: &mut [u8],
            fds: &mut [Fd],
        ) -> Result<(usize, sys::jw_received), Errno> {
            let mut out = sys::jw_received::default();
            // SAFETY: the handle and `out` are valid, and each pointer has the length behind it. An
            // `Fd` has the layout of its number, and each number is one.
            let answer = unsafe {
                sys::$call(
                    self.word.get(),
                    pid,
                    fd,
                    bytes.as_mut_ptr().cast(),
                    bytes.len(),
                    fds.as_mut_ptr().cast(),
                    fds.len(),
                    &mut out,
                )
            };
            Errno::check(answer).map(|count| (count as usize, out))
        }
    )*};
}

impl Handle {
    /// Makes an engine, and a handle that has it.
    pub(crate) fn new() -> Result<Handle, Errno> {
        let word = UnsafeCell::new(sys::JW_ENGINE_INIT);
        // SAFETY: the word is a handle without an engine.
        Errno::check(unsafe { sys::jw_engine_new(word.get()) })?;
        Ok(Handle { word })
    }

    calls! {
        spawn = jw_spawn(uid: u32, nofile: u32, privileged: bool);
        open = jw_open(pid: u32);
        dup = jw_dup(pid: u32, fd: u32);
        dup2 = jw_dup2(pid: u32, from: u32, to: u32);
        close = jw_close(pid: u32, fd: u32);
        fork = jw_fork(pid: u32);
        limit = jw_limit(pid: u32, nofile: u32);
        exit = jw_exit(pid: u32);
        socket = jw_socket(pid: u32, kind: u32);
        listen = jw_listen(pid: u32, fd: u32, backlog: u32);
        accept = jw_accept(pid: u32, fd: u32);
        shutdown = jw_shutdown(pid: u32, fd: u32, how: u32);
        unconnect = jw_unconnect(pid: u32, fd: u32);
        next_pid = jw_next_pid();
        tell_released = jw_tell_released();
        tell_changed = jw_tell_changed();
        clear_told = jw_clear_told();
    }

    calls_that_write! {
        pair = jw_pair(pid: u32, kind: u32) -> sys::jw_pair;
        begin = jw_begin() -> u64;
        slice = jw_slice(budget: u32) -> sys::jw_finished;
        pass = jw_pass() -> sys::jw_finished;
        ino = jw_ino(pid: u32, fd: u32) -> u64;
        next_fd = jw_next_fd(pid: u32, from: u32) -> u64;
        poll = jw_poll(pid: u32, fd: u32) -> sys::jw_ready;
        refs = jw_refs(ino: u64) -> u64;
        inflight = jw_inflight(ino: u64) -> u64;
        charged = jw_charged(uid: u32) -> u64;
        total = jw_total() -> u64;
        live = jw_live() -> u64;
        next_after = jw_next_after(ino: u64) -> u64;
        file = jw_file(ino: u64) -> sys::jw_file;
        check = jw_check() -> sys::jw_checked;
    }

    calls_that_list! {
        name = jw_name(ino: u64) -> [u8];
        graph = jw_graph() -> [u8];
        released = jw_released() -> [u64];
        changed = jw_changed() -> [u64];
    }

    calls_with_name! {
        bind = jw_bind;
        connect = jw_connect;
    }

    calls_that_receive! {
        recv = jw_recv;
        peek = jw_peek;
    }

    /// Sends these bytes with the files of these descriptors, and returns how many bytes were sent.
    pub(crate) fn send(
        &self,
        pid: u32,
        fd: u32,
        bytes: &[u8],
        attach: &[Fd],
    ) -> Result<usize, Errno> {
        // SAFETY: the handle is valid, and each pointer has the length behind it. An `Fd` has the
        // layout of its number.
        let answer = unsafe {
            sys::jw_send(
                self.word.get(),
                pid,
                fd,
                bytes.as_ptr().cast(),
                bytes.len(),
                attach.as_ptr().cast(),
                attach.len(),
            )
        };
        Errno::check(answer).map(|count| count as usize)
    }
}

impl Drop for Handle {
    fn drop(&mut self) {
        // SAFETY: the handle is valid, and is not used again.
        unsafe { sys::jw_engine_free(self.word.get()) }
    }
}
