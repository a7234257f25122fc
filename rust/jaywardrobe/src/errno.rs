//! Why a call is refused.
use jaywardrobe_sys as sys;
use std::fmt;
use std::io;

/// Declares the errors: a name, the library's number, the number of Linux, and what it says.
macro_rules! errors {
    ($($name:ident, $number:ident, $host:expr, $text:literal;)*) => {
        /// Why a call is refused. After a refusal the engine is as it was.
        ///
        /// The names are those of errno(3), but for the last three, which Linux does not have.
        ///
        /// ```
        /// use jaywardrobe::{Engine, Errno, Fd};
        ///
        /// let mut engine = Engine::new()?;
        /// let pid = engine.spawn(1000, 16, false)?;
        /// assert_eq!(engine.close(pid, Fd(5)), Err(Errno::EBADF));
        /// # Ok::<(), Errno>(())
        /// ```
        #[derive(Clone, Copy, Debug, PartialEq, Eq, Hash)]
        #[non_exhaustive]
        #[repr(i64)]
        pub enum Errno {
            $(
                #[doc = concat!("`", stringify!($name), "`: ", $text, ".")]
                $name = sys::$number,
            )*
        }

        impl Errno {
            const ALL: &[Errno] = &[$(Errno::$name,)*];

            /// Returns the number that Linux has for this error, if it has one.
            ///
            /// ```
            /// use jaywardrobe::Errno;
            ///
            /// assert_eq!(Errno::EBADF.raw_os_error(), Some(9));
            /// assert_eq!(Errno::EIDLE.raw_os_error(), None);
            /// ```
            pub fn raw_os_error(self) -> Option<i32> {
                match self {
                    $(Errno::$name => $host,)*
                }
            }
        }

        impl fmt::Display for Errno {
            fn fmt(&self, f: &mut fmt::Formatter<'_>) -> fmt::Result {
                let text = match self {
                    $(Errno::$name => $text,)*
                };
                write!(f, "{self:?}: {text}")
            }
        }
    };
}

errors! {
    EBADF, JW_EBADF, Some(9), "the descriptor is not open, or a new one is not below the limit";
    ENOTSOCK, JW_ENOTSOCK, Some(88), "the file is no socket";
    EINVAL, JW_EINVAL, Some(22), "an argument is out of range, or the socket's state forbids it";
    EMFILE, JW_EMFILE, Some(24), "the table of the process is full";
    ENFILE, JW_ENFILE, Some(23), "there are too many files, or no inode number is left";
    EAGAIN, JW_EAGAIN, Some(11), "a queue or a backlog is full or empty, or all processes are taken";
    EMSGSIZE, JW_EMSGSIZE, Some(90), "the message has too many bytes";
    ETOOMANYREFS, JW_ETOOMANYREFS, Some(109), "the user has too many descriptors in flight";
    ENOBUFS, JW_ENOBUFS, Some(105), "all users together have too many descriptors in flight";
    ENOTCONN, JW_ENOTCONN, Some(107), "the socket is connected to none";
    EPIPE, JW_EPIPE, Some(32), "the peer is gone, or an end on the way is closed";
    EISCONN, JW_EISCONN, Some(106), "the socket is connected already";
    EADDRINUSE, JW_EADDRINUSE, Some(98), "a live socket has this name";
    ECONNREFUSED, JW_ECONNREFUSED, Some(111), "no socket of this name takes connections";
    EPROTOTYPE, JW_EPROTOTYPE, Some(91), "the listener is of the other type";
    ESRCH, JW_ESRCH, Some(3), "there is no such process";
    ENOMEM, JW_ENOMEM, Some(12), "memory ran out";
    EBUSY, JW_EBUSY, Some(16), "a pass runs";
    ERANGE, JW_ERANGE, Some(34), "the limit on descriptors is too large";
    EPERM, JW_EPERM, Some(1), "the datagram socket sends to another, and takes from that one alone";
    EOPNOTSUPP, JW_EOPNOTSUPP, Some(95), "sockets of this type cannot do that";
    EIDLE, JW_EIDLE, None, "no pass runs";
    ENOENGINE, JW_ENOENGINE, None, "the handle has no engine, which no Engine lets happen";
    EDIFFERS, JW_EDIFFERS, None, "a kept number is not its recount, which is proved not to happen";
}

impl Errno {
    /// Returns what a call answers: a number, or the error that it is the negative of.
    pub(crate) fn check(answer: i64) -> Result<u64, Errno> {
        u64::try_from(answer).map_err(|_| {
            let error = Errno::ALL.iter().find(|error| **error as i64 == -answer);
            *error.expect("the library answers no other error")
        })
    }
}

impl std::error::Error for Errno {}

/// An error that Linux has becomes what a system call would give.
impl From<Errno> for io::Error {
    fn from(error: Errno) -> io::Error {
        match error.raw_os_error() {
            Some(number) => io::Error::from_raw_os_error(number),
            None => io::Error::other(error),
        }
    }
}

#[cfg(test)]
mod tests {
    use super::*;

    #[test]
    fn each_error_has_the_name_that_the_library_gives_it() {
        for number in 1..1000 {
            let found = Errno::ALL.iter().find(|error| **error as i64 == number);
            let name = found.map_or("unknown".to_owned(), |error| format!("{error:?}"));
            assert_eq!(name, sys::jw_strerror(-number));
        }
    }

    #[test]
    fn an_answer_is_a_number_or_the_negative_of_an_error() {
        assert_eq!(Errno::check(0), Ok(0));
        assert_eq!(Errno::check(i64::MAX), Ok(i64::MAX as u64));
        assert_eq!(Errno::check(-1), Err(Errno::EBADF));
        assert_eq!(Errno::check(-101), Err(Errno::EDIFFERS));
    }
}
