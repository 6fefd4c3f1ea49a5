//! What the proved text calls of Rattle's library that Rust's has otherwise, written by hand.
//!
//! In Rattle a request for memory may be refused. So each call that asks for memory answers a
//! `Result`, and a collection is passed the allocator. Here memory is asked for by `try_reserve`.

pub mod alloc;
pub mod collections;
pub mod smallvec;
pub mod snapshot;
#[cfg(all(test, feature = "command"))]
pub mod test;
mod text;
mod vec;

#[cfg(feature = "command")]
pub mod clap;
#[cfg(feature = "command")]
pub mod env;
#[cfg(feature = "command")]
pub mod fs;
pub mod hex;
#[cfg(feature = "std")]
pub mod io;
#[cfg(feature = "command")]
pub mod rt;

pub use self::alloc::TryClone as Clone;
#[cfg(feature = "command")]
pub use self::rt::{AllocGlobal, HostRuntime};
#[cfg(all(test, feature = "command"))]
pub(crate) use self::test::{assert, assert_eq};
#[cfg(feature = "command")]
pub(crate) use self::text::format;
pub use self::text::{String, text_of};
pub use self::vec::Vec;
pub use core::{fmt, hash, mem, ops};
#[cfg(feature = "command")]
pub use std::process;

#[cfg(not(feature = "std"))]
pub mod io {
    //! Outputs, where there is no system.

    /// A writer takes some of the bytes that it is given.
    pub trait Write {
        /// Takes bytes from the front, and answers how many.
        fn write(&mut self, bytes: &[u8]) -> Result<usize, crate::proved::dw_canon::SinkFault>;
    }
}

/// Rattle drops a value only where its type is `Drop`. In Rust each may be dropped.
pub trait Drop {}

impl<T: ?Sized> Drop for T {}
