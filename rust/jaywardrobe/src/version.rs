//! The version of the C library.
use crate::handle;
use std::fmt;

/// A version of the C library. A later one is larger.
#[derive(Clone, Copy, Debug, PartialEq, Eq, PartialOrd, Ord, Hash)]
pub struct Version {
    /// Rises where a program may have to change.
    pub major: u32,
    /// Rises with each new call.
    pub minor: u32,
    /// Rises where calls stay as they are.
    pub patch: u32,
}

impl fmt::Display for Version {
    fn fmt(&self, f: &mut fmt::Formatter<'_>) -> fmt::Result {
        write!(f, "{}.{}.{}", self.major, self.minor, self.patch)
    }
}

/// Returns the version of the C library that the program runs with.
///
/// # Examples
///
/// ```
/// use jaywardrobe::{Version, version};
///
/// assert!(version() >= Version { major: 0, minor: 2, patch: 0 });
/// ```
pub fn version() -> Version {
    let number = handle::version();
    Version {
        major: number / 1_000_000,
        minor: number / 1_000 % 1_000,
        patch: number % 1_000,
    }
}
