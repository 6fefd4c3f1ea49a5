//! Vectors whose growth may be refused.

use super::alloc::{AllocError, AllocFailed, Global};
use ::alloc::vec;
use core::fmt;
use core::ops::{Deref, DerefMut};

/// A vector. It has the reading calls of a slice.
#[derive(PartialEq, Eq)]
pub struct Vec<T>(vec::Vec<T>);

impl<T> Vec<T> {
    /// An empty one. Takes no memory.
    pub const fn new(_alloc: Global) -> Vec<T> {
        Vec(vec::Vec::new())
    }

    /// An empty one with room for so many items.
    pub fn with_capacity(_alloc: Global, capacity: usize) -> Result<Vec<T>, AllocError> {
        let mut items = vec::Vec::new();
        items.try_reserve_exact(capacity)?;
        Ok(Vec(items))
    }

    /// The allocator that it was made with.
    pub fn allocator(&self) -> &Global {
        &Global
    }

    /// Makes room for so many items more.
    #[inline]
    pub fn reserve(&mut self, more: usize) -> Result<(), AllocError> {
        Ok(self.0.try_reserve(more)?)
    }

    /// Appends an item.
    #[inline]
    pub fn push(&mut self, value: T) -> Result<(), AllocFailed<T>> {
        if self.0.len() == self.0.capacity() && self.0.try_reserve(1).is_err() {
            return Err(AllocFailed { value });
        }
        self.0.push(value);
        Ok(())
    }

    /// Appends an item where room was made before.
    #[inline]
    pub fn push_reserved(&mut self, value: T) {
        self.0.push(value);
    }

    /// Takes the last item.
    pub fn pop(&mut self) -> Option<T> {
        self.0.pop()
    }

    /// Leaves so many items.
    pub fn truncate(&mut self, len: usize) {
        self.0.truncate(len);
    }

    /// Leaves no item.
    pub fn clear(&mut self) {
        self.0.clear();
    }

    /// All items.
    pub fn as_slice(&self) -> &[T] {
        &self.0
    }

    /// All items, which may be changed.
    pub fn as_mut_slice(&mut self) -> &mut [T] {
        &mut self.0
    }

    /// The vector of Rust's library.
    pub fn into_std(self) -> vec::Vec<T> {
        self.0
    }

    /// The vector of Rust's library, whose calls end the process where memory is refused.
    pub(crate) fn as_std(&mut self) -> &mut vec::Vec<T> {
        &mut self.0
    }
}

impl<T: Copy> Vec<T> {
    /// A copy of a slice.
    pub fn from_slice(alloc: Global, items: &[T]) -> Result<Vec<T>, AllocError> {
        let mut copy = Vec::with_capacity(alloc, items.len())?;
        copy.0.extend_from_slice(items);
        Ok(copy)
    }

    /// Appends a copy of a slice.
    #[inline]
    pub fn extend_from_slice(&mut self, items: &[T]) -> Result<(), AllocError> {
        self.0.try_reserve(items.len())?;
        self.0.extend_from_slice(items);
        Ok(())
    }

    /// Makes it so long, by copies of a value.
    pub fn resize(&mut self, len: usize, value: T) -> Result<(), AllocError> {
        self.0.try_reserve(len.saturating_sub(self.0.len()))?;
        self.0.resize(len, value);
        Ok(())
    }

    /// Puts the items in the order of their keys, those of one key as they were. Where memory runs
    /// out they stay.
    pub fn sort_by_key<K: Ord>(&mut self, key: impl Fn(&T) -> K) -> Result<(), AllocError> {
        let mut order = vec::Vec::new();
        order.try_reserve_exact(self.0.len())?;
        let mut sorted = vec::Vec::new();
        sorted.try_reserve_exact(self.0.len())?;
        order.extend(self.0.iter().enumerate().map(|(place, item)| (key(item), place)));
        order.sort_unstable();
        sorted.extend(order.iter().map(|(_, place)| self.0[*place]));
        self.0 = sorted;
        Ok(())
    }
}

impl<T: fmt::Debug> fmt::Debug for Vec<T> {
    fn fmt(&self, f: &mut fmt::Formatter<'_>) -> fmt::Result {
        self.0.fmt(f)
    }
}

impl<T> Deref for Vec<T> {
    type Target = [T];

    #[inline]
    fn deref(&self) -> &[T] {
        &self.0
    }
}

impl<T> DerefMut for Vec<T> {
    #[inline]
    fn deref_mut(&mut self) -> &mut [T] {
        &mut self.0
    }
}

impl<'v, T> IntoIterator for &'v Vec<T> {
    type Item = &'v T;
    type IntoIter = core::slice::Iter<'v, T>;

    fn into_iter(self) -> Self::IntoIter {
        self.0.iter()
    }
}

impl<T> From<vec::Vec<T>> for Vec<T> {
    fn from(items: vec::Vec<T>) -> Vec<T> {
        Vec(items)
    }
}

impl<T> AsRef<[T]> for Vec<T> {
    fn as_ref(&self) -> &[T] {
        &self.0
    }
}

#[cfg(feature = "std")]
impl std::io::Write for Vec<u8> {
    fn write(&mut self, bytes: &[u8]) -> std::io::Result<usize> {
        self.extend_from_slice(bytes)?;
        Ok(bytes.len())
    }

    fn flush(&mut self) -> std::io::Result<()> {
        Ok(())
    }
}
