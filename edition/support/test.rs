//! What tests answer and ask.

use super::alloc::AllocFailed;
use std::fmt::{self, Debug, Display};

/// Why a test failed.
pub struct Fail(std::string::String);

impl Fail {
    /// For a reason.
    pub fn new(reason: impl Display) -> Fail {
        Fail(reason.to_string())
    }
}

impl<E: Display> From<E> for Fail {
    fn from(error: E) -> Fail {
        Fail::new(error)
    }
}

impl<T> From<AllocFailed<T>> for Fail {
    fn from(_failed: AllocFailed<T>) -> Fail {
        Fail::new("out of memory")
    }
}

impl Debug for Fail {
    fn fmt(&self, f: &mut fmt::Formatter<'_>) -> fmt::Result {
        f.write_str(&self.0)
    }
}

macro_rules! assert_eq {
    ($rt:expr; $($words:tt)*) => {{
        let _: &$crate::proved::support::HostRuntime = &$rt;
        std::assert_eq!($($words)*)
    }};
}

macro_rules! assert {
    ($rt:expr; $($words:tt)*) => {{
        let _: &$crate::proved::support::HostRuntime = &$rt;
        std::assert!($($words)*)
    }};
}

pub(crate) use {assert, assert_eq};
