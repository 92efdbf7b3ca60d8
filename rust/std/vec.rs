//! Vectors whose growth can be refused.

use super::alloc::{AllocError, Global};
use std::cmp::Ordering;
use std::fmt;
use std::io;
use std::ops::{Deref, DerefMut};

/// A vector as Rust's, but for calls that take memory: these answer a `Result`, and change nothing where memory is
/// refused.
#[derive(PartialEq, Eq, Hash, PartialOrd, Ord)]
pub struct Vec<T>(std::vec::Vec<T>);

impl<T> Vec<T> {
    /// A vector without items. It takes no memory.
    pub fn new(_alloc: Global) -> Self {
        Vec(std::vec::Vec::new())
    }

    /// A vector without items that has room for so many.
    pub fn with_capacity(_alloc: Global, room: usize) -> Result<Self, AllocError> {
        let mut items = std::vec::Vec::new();
        items.try_reserve_exact(room)?;
        Ok(Vec(items))
    }

    /// A copy of a slice.
    pub fn from_slice(alloc: Global, items: &[T]) -> Result<Self, AllocError>
    where
        T: Copy,
    {
        let mut copy = Vec::new(alloc);
        copy.0.try_reserve_exact(items.len())?;
        copy.0.extend_from_slice(items);
        Ok(copy)
    }

    /// The items of an array.
    pub fn from_array<const N: usize>(alloc: Global, items: [T; N]) -> Result<Self, AllocError> {
        let mut list = Vec::with_capacity(alloc, N)?;
        list.0.extend(items);
        Ok(list)
    }

    /// So many times one item.
    pub fn from_elem(alloc: Global, item: T, count: usize) -> Result<Self, AllocError>
    where
        T: Copy,
    {
        let mut list = Vec::with_capacity(alloc, count)?;
        list.0.resize(count, item);
        Ok(list)
    }

    /// Appends an item.
    #[inline(always)]
    pub fn push(&mut self, item: T) -> Result<(), AllocError> {
        if self.0.len() == self.0.capacity() {
            self.0.try_reserve(1)?;
        }
        self.0.push(item);
        Ok(())
    }

    /// Appends the items of a slice.
    #[inline]
    pub fn extend_from_slice(&mut self, items: &[T]) -> Result<(), AllocError>
    where
        T: Copy,
    {
        self.0.try_reserve(items.len())?;
        self.0.extend_from_slice(items);
        Ok(())
    }

    /// Makes room for so many more items.
    pub fn reserve(&mut self, more: usize) -> Result<(), AllocError> {
        Ok(self.0.try_reserve(more)?)
    }

    /// Cuts the vector to so many items, or fills it up to them.
    pub fn resize(&mut self, count: usize, item: T) -> Result<(), AllocError>
    where
        T: Copy,
    {
        let more = count.saturating_sub(self.0.len());
        if more > self.0.capacity() - self.0.len() {
            self.0.try_reserve(more)?;
        }
        self.0.truncate(count);
        // all in one fill; std's `resize` writes the last item by itself
        self.0.extend(std::iter::repeat_n(item, more));
        Ok(())
    }

    /// Moves the items of another vector behind these, and leaves it none. Where memory is refused, both keep theirs.
    pub fn append(&mut self, other: &mut Vec<T>) -> Result<(), AllocError> {
        self.0.try_reserve(other.0.len())?;
        self.0.append(&mut other.0);
        Ok(())
    }

    /// Takes the last item.
    pub fn pop(&mut self) -> Option<T> {
        self.0.pop()
    }

    /// Lets go all but the first items.
    pub fn truncate(&mut self, count: usize) {
        self.0.truncate(count);
    }

    /// Lets go all items.
    pub fn clear(&mut self) {
        self.0.clear();
    }

    /// How many items there is room for.
    pub fn capacity(&self) -> usize {
        self.0.capacity()
    }

    /// The items.
    pub fn as_slice(&self) -> &[T] {
        &self.0
    }

    /// The items, to be changed.
    pub fn as_mut_slice(&mut self) -> &mut [T] {
        &mut self.0
    }

    /// The items of a range, to be changed.
    pub fn slice_mut<R: std::slice::SliceIndex<[T], Output = [T]>>(&mut self, range: R) -> &mut [T] {
        &mut self.0[range]
    }

    /// Puts the items in order; equal ones stay in theirs. Refused where memory is: then nothing has moved.
    pub fn sort_by<F: FnMut(&T, &T) -> Ordering>(&mut self, mut compare: F) -> Result<(), AllocError> {
        // Rust's stable sort would end the program for want of memory. So the places are sorted, by a sort that takes
        // none, and of equal items that of the lower place comes first.
        let mut places = std::vec::Vec::new();
        places.try_reserve_exact(self.0.len())?;
        places.extend(0..self.0.len());
        places.sort_unstable_by(|a, b| compare(&self.0[*a], &self.0[*b]).then(a.cmp(b)));
        for target in 0..places.len() {
            // what stood at a place before was moved to where that place's own item came from
            let mut source = places[target];
            while source < target {
                source = places[source];
            }
            self.0.swap(target, source);
        }
        Ok(())
    }

    /// The allocator.
    pub fn allocator(&self) -> &Global {
        &Global
    }
}

impl<T: fmt::Debug> fmt::Debug for Vec<T> {
    fn fmt(&self, f: &mut fmt::Formatter<'_>) -> fmt::Result {
        self.0.fmt(f)
    }
}

impl<T> Deref for Vec<T> {
    type Target = [T];

    fn deref(&self) -> &[T] {
        &self.0
    }
}

impl<T> DerefMut for Vec<T> {
    fn deref_mut(&mut self) -> &mut [T] {
        &mut self.0
    }
}

impl<T> From<std::vec::Vec<T>> for Vec<T> {
    fn from(items: std::vec::Vec<T>) -> Self {
        Vec(items)
    }
}

impl<T> From<Vec<T>> for std::vec::Vec<T> {
    fn from(items: Vec<T>) -> Self {
        items.0
    }
}

impl<T> IntoIterator for Vec<T> {
    type Item = T;
    type IntoIter = std::vec::IntoIter<T>;

    fn into_iter(self) -> Self::IntoIter {
        self.0.into_iter()
    }
}

impl<'a, T> IntoIterator for &'a Vec<T> {
    type Item = &'a T;
    type IntoIter = std::slice::Iter<'a, T>;

    fn into_iter(self) -> Self::IntoIter {
        self.0.iter()
    }
}

impl<'a, T> IntoIterator for &'a mut Vec<T> {
    type Item = &'a mut T;
    type IntoIter = std::slice::IterMut<'a, T>;

    fn into_iter(self) -> Self::IntoIter {
        self.0.iter_mut()
    }
}

impl io::Write for Vec<u8> {
    fn write(&mut self, bytes: &[u8]) -> io::Result<usize> {
        match self.extend_from_slice(bytes) {
            Ok(()) => Ok(bytes.len()),
            Err(AllocError) => Err(io::Error::from(io::ErrorKind::OutOfMemory)),
        }
    }

    fn flush(&mut self) -> io::Result<()> {
        Ok(())
    }
}

/// Collecting into a vector whose memory can be refused.
pub trait CollectGiven: Iterator + Sized {
    /// The items, in a vector.
    fn collect_given(self, alloc: Global) -> Result<Vec<Self::Item>, AllocError> {
        let mut items = Vec::new(alloc);
        for item in self {
            items.push(item)?;
        }
        Ok(items)
    }
}

impl<I: Iterator> CollectGiven for I {}

/// Copying a slice into a vector whose memory can be refused.
pub trait SliceGiven<T: Copy> {
    /// The items, in a vector.
    fn to_vec_given(&self, alloc: Global) -> Result<Vec<T>, AllocError>;
}

impl<T: Copy> SliceGiven<T> for [T] {
    fn to_vec_given(&self, alloc: Global) -> Result<Vec<T>, AllocError> {
        Vec::from_slice(alloc, self)
    }
}

#[cfg(test)]
mod tests {
    use super::{Global, Vec};

    #[test]
    fn equal_items_stay_in_their_order() {
        for count in [0, 1, 2, 21, 40, 500, 5000] {
            for keys in [1, 2, 7, 100, 104_729] {
                let items = (0..count).map(|place: usize| (place.wrapping_mul(7919) % keys, place));
                let mut wanted: std::vec::Vec<_> = items.collect();
                let mut sorted = Vec::from_slice(Global, &wanted).expect("there is memory");
                wanted.sort_by_key(|item| item.0);
                assert!(sorted.sort_by(|a, b| a.0.cmp(&b.0)).is_ok());
                assert_eq!(sorted.as_slice(), wanted.as_slice());
            }
        }
    }
}
