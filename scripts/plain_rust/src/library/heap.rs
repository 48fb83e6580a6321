//! A heap that tells where memory for it is refused.
use super::{AllocFailed, Global};

pub struct BinaryHeap<T>(std::collections::BinaryHeap<T>);

impl<T: Ord> BinaryHeap<T> {
    pub fn new(_: Global) -> Self {
        BinaryHeap(std::collections::BinaryHeap::new())
    }

    pub fn len(&self) -> usize {
        self.0.len()
    }

    pub fn push(&mut self, value: T) -> Result<(), AllocFailed<T>> {
        if self.0.len() == self.0.capacity() && self.0.try_reserve(1).is_err() {
            return Err(AllocFailed { value });
        }
        self.0.push(value);
        Ok(())
    }

    pub fn pop(&mut self) -> Option<T> {
        self.0.pop()
    }
}
