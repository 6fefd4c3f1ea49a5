//! Vectors that begin in place, by the crate `smallvec`, whose growth may be refused.

use super::alloc::{AllocFailed, Global};
use core::ops::Deref;
use smallvec::Array;

/// A vector whose first `N` items stand in place. It has the reading calls of a slice.
pub struct SmallVec<T, const N: usize>(smallvec::SmallVec<[T; N]>)
where
    [T; N]: Array<Item = T>;

impl<T, const N: usize> SmallVec<T, N>
where
    [T; N]: Array<Item = T>,
{
    /// An empty one. Takes no memory.
    #[inline]
    pub fn new(_alloc: Global) -> SmallVec<T, N> {
        SmallVec(smallvec::SmallVec::new())
    }

    /// Appends an item.
    #[inline]
    pub fn push(&mut self, value: T) -> Result<(), AllocFailed<T>> {
        if self.0.try_reserve(1).is_err() {
            return Err(AllocFailed { value });
        }
        self.0.push(value);
        Ok(())
    }

    /// Takes the last item.
    #[inline]
    pub fn pop(&mut self) -> Option<T> {
        self.0.pop()
    }

    /// Leaves no item.
    #[inline]
    pub fn clear(&mut self) {
        self.0.clear();
    }

    /// All items.
    #[inline]
    pub fn as_slice(&self) -> &[T] {
        self.0.as_slice()
    }
}

impl<T, const N: usize> Deref for SmallVec<T, N>
where
    [T; N]: Array<Item = T>,
{
    type Target = [T];

    #[inline]
    fn deref(&self) -> &[T] {
        &self.0
    }
}
