//! Maps in the order of their keys, whose growth may be refused. Rust's `BTreeMap` would end the
//! process there.

use super::alloc::{AllocError, AllocFailed, Global};
use ::alloc::vec::Vec;
use core::ops::{Bound, Index};
use core::{fmt, mem};

pub mod btree_map {
    //! Walks over maps.
    pub use super::{Range, Range as Iter};
}

// The most entries of a part.
const MOST: usize = 64;

/// A map. Its entries stand in parts of up to 64, none of which is empty, with all keys ascending.
pub struct BTreeMap<K, V> {
    parts: Vec<Vec<(K, V)>>,
    len: usize,
}

// Where an entry stands: its part, and its place there.
type Place = (usize, usize);

impl<K: Ord, V> BTreeMap<K, V> {
    /// An empty one. Takes no memory.
    pub const fn new(_alloc: Global) -> BTreeMap<K, V> {
        BTreeMap { parts: Vec::new(), len: 0 }
    }

    // The first entry whose key is not below: behind the last part where there is none.
    fn place_from(&self, is_below: impl Fn(&K) -> bool) -> Place {
        let ends_below = |part: &Vec<(K, V)>| part.last().is_some_and(|last| is_below(&last.0));
        let part = self.parts.partition_point(ends_below);
        let below = |part: &Vec<(K, V)>| part.partition_point(|entry| is_below(&entry.0));
        (part, self.parts.get(part).map_or(0, below))
    }

    // Where a key stands, or else where it would.
    fn find(&self, key: &K) -> Result<Place, Place> {
        let (part, place) = self.place_from(|other| other < key);
        match self.parts.get(part) {
            Some(found) if found[place].0 == *key => Ok((part, place)),
            _ => Err((part, place)),
        }
    }

    // Makes room for an entry in a part that has none left, or behind all parts, and answers where
    // it may stand in order.
    fn make_room(&mut self, (part, place): Place) -> Result<Place, AllocError> {
        let (part, place) = match self.parts.len() {
            count if part < count || count == 0 => (part, place),
            count => (count - 1, self.parts[count - 1].len()),
        };
        let full = self.parts.get(part).is_none_or(|own| own.len() == MOST);
        if !full {
            return Ok((part, place));
        }
        self.parts.try_reserve(1)?;
        let mut back = Vec::new();
        back.try_reserve_exact(MOST)?;
        let Some(own) = self.parts.get_mut(part) else {
            self.parts.push(back);
            return Ok((part, place));
        };
        // Keys mostly come ascending.
        let kept = if place == MOST { MOST } else { MOST / 2 };
        back.extend(own.drain(kept..));
        self.parts.insert(part + 1, back);
        Ok(if place <= kept && place < MOST { (part, place) } else { (part + 1, place - kept) })
    }

    /// Gives a key a value, and answers the one that it had. Where memory runs out the map stays.
    pub fn insert(&mut self, key: K, value: V) -> Result<Option<V>, AllocFailed<(K, V)>> {
        let free = match self.find(&key) {
            Ok((part, place)) => {
                let old = &mut self.parts[part][place].1;
                return Ok(Some(mem::replace(old, value)));
            }
            Err(free) => free,
        };
        let Ok((part, place)) = self.make_room(free) else {
            return Err(AllocFailed { value: (key, value) });
        };
        self.parts[part].insert(place, (key, value));
        self.len += 1;
        Ok(None)
    }

    /// Takes a key out, and answers its value.
    pub fn remove(&mut self, key: &K) -> Option<V> {
        let (part, place) = self.find(key).ok()?;
        let (_, value) = self.parts[part].remove(place);
        if self.parts[part].is_empty() {
            self.parts.remove(part);
        }
        self.len -= 1;
        Some(value)
    }

    /// The value of a key.
    pub fn get(&self, key: &K) -> Option<&V> {
        let (part, place) = self.find(key).ok()?;
        Some(&self.parts[part][place].1)
    }

    /// The value of a key, which may be changed.
    pub fn get_mut(&mut self, key: &K) -> Option<&mut V> {
        let (part, place) = self.find(key).ok()?;
        Some(&mut self.parts[part][place].1)
    }

    /// How many keys there are.
    pub fn len(&self) -> usize {
        self.len
    }

    /// Whether there is no key.
    #[inline]
    pub fn is_empty(&self) -> bool {
        self.len == 0
    }

    /// Keeps some keys.
    pub fn retain(&mut self, mut keeps: impl FnMut(&K, &mut V) -> bool) {
        for part in &mut self.parts {
            part.retain_mut(|(key, value)| keeps(key, value));
        }
        self.parts.retain(|part| !part.is_empty());
        self.len = self.parts.iter().map(Vec::len).sum();
    }

    /// Takes all keys out.
    pub fn clear(&mut self) {
        self.parts.clear();
        self.len = 0;
    }

    /// The keys with their values, ascending.
    pub fn iter(&self) -> Range<'_, K, V> {
        Range { parts: &self.parts, at: (0, 0), end: (self.parts.len(), 0) }
    }

    /// The keys in a range with their values, ascending.
    pub fn range(&self, (from, to): (Bound<K>, Bound<K>)) -> Range<'_, K, V> {
        let at = match from {
            Bound::Included(low) => self.place_from(|key| *key < low),
            Bound::Excluded(low) => self.place_from(|key| *key <= low),
            Bound::Unbounded => (0, 0),
        };
        let end = match to {
            Bound::Included(high) => self.place_from(|key| *key <= high),
            Bound::Excluded(high) => self.place_from(|key| *key < high),
            Bound::Unbounded => (self.parts.len(), 0),
        };
        Range { parts: &self.parts, at, end }
    }
}

impl<K: Ord + fmt::Debug, V: fmt::Debug> fmt::Debug for BTreeMap<K, V> {
    fn fmt(&self, f: &mut fmt::Formatter<'_>) -> fmt::Result {
        f.debug_map().entries(self.iter()).finish()
    }
}

impl<K: Ord, V> Index<&K> for BTreeMap<K, V> {
    type Output = V;

    /// The value of a key, which must be there.
    fn index(&self, key: &K) -> &V {
        self.get(key).expect("the key has a value")
    }
}

/// Entries of a map, ascending.
#[derive(Clone, Debug)]
pub struct Range<'m, K, V> {
    parts: &'m [Vec<(K, V)>],
    at: Place,
    end: Place,
}

impl<'m, K, V> Iterator for Range<'m, K, V> {
    type Item = (&'m K, &'m V);

    fn next(&mut self) -> Option<(&'m K, &'m V)> {
        if self.at >= self.end {
            return None;
        }
        let part = self.parts.get(self.at.0)?;
        let (key, value) = part.get(self.at.1)?;
        self.at.1 += 1;
        if self.at.1 == part.len() {
            self.at = (self.at.0 + 1, 0);
        }
        Some((key, value))
    }
}

#[cfg(test)]
mod tests {
    use super::{BTreeMap, Bound, Global};
    use ::alloc::collections;

    /// Numbers that are the same in each run.
    struct Chance(u64);

    impl Chance {
        fn below(&mut self, most: u64) -> u64 {
            let factor = 6_364_136_223_846_793_005;
            self.0 = self.0.wrapping_mul(factor).wrapping_add(1_442_695_040_888_963_407);
            (self.0 >> 33) % most
        }

        fn bound(&mut self, at: u64) -> Bound<u64> {
            match self.below(3) {
                0 => Bound::Included(at),
                1 => Bound::Excluded(at),
                _ => Bound::Unbounded,
            }
        }
    }

    #[test]
    fn does_what_that_of_rust_does() {
        let mut chance = Chance(1);
        for keys in [3, 70, 500, 5000] {
            let mut mine = BTreeMap::new(Global);
            let mut other = collections::BTreeMap::new();
            for step in 0..20_000_u64 {
                let key = if step % 3 == 0 { step % keys } else { chance.below(keys) };
                match chance.below(20) {
                    0..=10 => assert_eq!(mine.insert(key, step), Ok(other.insert(key, step))),
                    11..=15 => assert_eq!(mine.remove(&key), other.remove(&key)),
                    16 => assert_eq!(mine.get_mut(&key), other.get_mut(&key)),
                    17 if chance.below(50) == 0 => {
                        mine.retain(|key, _| key % 3 != 0);
                        other.retain(|key, _| key % 3 != 0);
                    }
                    18 if chance.below(500) == 0 => {
                        mine.clear();
                        other.clear();
                    }
                    _ => {
                        let top = key + chance.below(9) + 1;
                        let range = (chance.bound(key), chance.bound(top));
                        assert!(mine.range(range).take(200).eq(other.range(range).take(200)));
                    }
                }
                assert_eq!(mine.get(&key), other.get(&key));
                assert_eq!((mine.len(), mine.is_empty()), (other.len(), other.is_empty()));
                assert!(mine.parts.iter().all(|part| (1..=super::MOST).contains(&part.len())));
            }
            assert!(mine.iter().eq(other.iter()));
        }
    }
}
