//! Lists that tell where memory for them is refused.
use super::{AllocError, AllocFailed, Global};
use std::fmt;
use std::ops::{Deref, DerefMut, Range};

pub struct Vec<T>(pub(super) std::vec::Vec<T>);

impl<T> Vec<T> {
    pub fn new(_: Global) -> Self {
        Vec(std::vec::Vec::new())
    }

    pub fn with_capacity(_: Global, count: usize) -> Result<Self, AllocError> {
        let mut list = std::vec::Vec::new();
        list.try_reserve_exact(count)?;
        Ok(Vec(list))
    }

    pub fn from_slice(alloc: Global, slice: &[T]) -> Result<Self, AllocError>
    where
        T: Copy,
    {
        let mut list = Vec::with_capacity(alloc, slice.len())?;
        list.0.extend_from_slice(slice);
        Ok(list)
    }

    pub fn push(&mut self, value: T) -> Result<(), AllocFailed<T>> {
        if self.0.len() == self.0.capacity() && self.0.try_reserve(1).is_err() {
            return Err(AllocFailed { value });
        }
        self.0.push(value);
        Ok(())
    }

    pub fn push_reserved(&mut self, value: T) {
        if self.0.len() < self.0.capacity() {
            self.0.push(value);
        }
    }

    pub fn pop(&mut self) -> Option<T> {
        self.0.pop()
    }

    pub fn allocator(&self) -> &Global {
        &Global
    }

    pub fn capacity(&self) -> usize {
        self.0.capacity()
    }

    pub fn reserve(&mut self, more: usize) -> Result<(), AllocError> {
        Ok(self.0.try_reserve(more)?)
    }

    pub fn extend_from_slice(&mut self, slice: &[T]) -> Result<(), AllocError>
    where
        T: Copy,
    {
        self.0.try_reserve(slice.len())?;
        self.0.extend_from_slice(slice);
        Ok(())
    }

    pub fn extend_from_within(&mut self, range: Range<usize>) -> Result<(), AllocError>
    where
        T: Copy,
    {
        self.0.try_reserve(range.len())?;
        self.0.extend_from_within(range);
        Ok(())
    }

    pub fn resize(&mut self, count: usize, value: T) -> Result<(), AllocError>
    where
        T: Copy,
    {
        self.0.try_reserve(count.saturating_sub(self.0.len()))?;
        self.0.resize(count, value);
        Ok(())
    }

    pub fn truncate(&mut self, count: usize) {
        self.0.truncate(count)
    }

    pub fn clear(&mut self) {
        self.0.clear()
    }

    pub fn dedup(&mut self)
    where
        T: PartialEq,
    {
        self.0.dedup()
    }

    pub fn sort_by_key<K: Ord>(&mut self, key: impl FnMut(&T) -> K) -> Result<(), AllocError> {
        self.0.sort_by_key(key);
        Ok(())
    }

    pub fn as_slice(&self) -> &[T] {
        &self.0
    }

    pub fn as_mut_slice(&mut self) -> &mut [T] {
        &mut self.0
    }
}

impl<T> Deref for Vec<T> {
    type Target = [T];

    fn deref(&self) -> &[T] {
        &self.0
    }
}

impl<T> DerefMut for Vec<T> {
    fn deref_mut(&mut self) -> &mut [T] {
        &mut self.0
    }
}

impl<T> IntoIterator for Vec<T> {
    type Item = T;
    type IntoIter = std::vec::IntoIter<T>;

    fn into_iter(self) -> Self::IntoIter {
        self.0.into_iter()
    }
}

impl<'a, T> IntoIterator for &'a Vec<T> {
    type Item = &'a T;
    type IntoIter = std::slice::Iter<'a, T>;

    fn into_iter(self) -> Self::IntoIter {
        self.0.iter()
    }
}

impl<T: fmt::Debug> fmt::Debug for Vec<T> {
    fn fmt(&self, f: &mut fmt::Formatter) -> fmt::Result {
        self.0.fmt(f)
    }
}

/// So many times this value.
pub fn filled<T: Copy>(alloc: Global, value: T, count: usize) -> Result<Vec<T>, AllocError> {
    let mut list = Vec::with_capacity(alloc, count)?;
    list.0.resize(count, value);
    Ok(list)
}

/// The kit's `collect`, which is handed an allocator.
pub trait CollectIn: Iterator + Sized {
    fn collect_in(self, alloc: Global) -> Result<Vec<Self::Item>, AllocError> {
        let mut list = Vec::with_capacity(alloc, self.size_hint().0)?;
        for value in self {
            list.push(value)?;
        }
        Ok(list)
    }
}

impl<I: Iterator> CollectIn for I {}

/// The kit's `to_vec`, which is handed an allocator.
pub trait SliceIn<T> {
    fn to_vec_in(&self, alloc: Global) -> Result<Vec<T>, AllocError>;
}

impl<T: Copy> SliceIn<T> for [T] {
    fn to_vec_in(&self, alloc: Global) -> Result<Vec<T>, AllocError> {
        Vec::from_slice(alloc, self)
    }
}
