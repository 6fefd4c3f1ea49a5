//! The allocator, and what is answered where it refuses memory.

use ::alloc::collections::TryReserveError;
use thiserror::Error;

/// The allocator of the program.
#[derive(Clone, Copy, Debug)]
pub struct Global;

/// A request for memory was refused.
#[derive(Clone, Copy, Debug, PartialEq, Eq, Error)]
#[error("out of memory")]
pub struct AllocError;

/// A request for memory was refused, and this value has no place.
#[derive(Clone, Copy, Debug, PartialEq, Eq)]
pub struct AllocFailed<T> {
    /// What could not be stored.
    pub value: T,
}

impl<T> From<AllocFailed<T>> for AllocError {
    fn from(_failed: AllocFailed<T>) -> AllocError {
        AllocError
    }
}

impl From<TryReserveError> for AllocError {
    fn from(_error: TryReserveError) -> AllocError {
        AllocError
    }
}

/// A copy that may ask for memory: what `Clone` is in Rattle.
pub trait TryClone: Sized {
    /// The same value once more, or want of memory.
    fn clone(&self) -> Result<Self, AllocError>;
}

// What Rattle derives for rows, which tests of the text copy.
#[cfg(test)]
impl TryClone for crate::proved::dw_cfa::LocatedRow<'_> {
    fn clone(&self) -> Result<Self, AllocError> {
        Ok(Self { location: self.location, row: self.row.copied()? })
    }
}
