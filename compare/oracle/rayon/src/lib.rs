//! Stands for rayon: its parallel iterators are the sequential ones, in the same order.

pub mod prelude {
    pub use crate::ParallelSlice;
}

use std::slice::{Chunks, Iter, IterMut};

pub trait ParallelSlice<T> {
    fn par_iter(&self) -> Iter<'_, T>;
    fn par_iter_mut(&mut self) -> IterMut<'_, T>;
    fn par_chunks(&self, size: usize) -> Chunks<'_, T>;
}

impl<T> ParallelSlice<T> for [T] {
    fn par_iter(&self) -> Iter<'_, T> {
        self.iter()
    }

    fn par_iter_mut(&mut self) -> IterMut<'_, T> {
        self.iter_mut()
    }

    fn par_chunks(&self, size: usize) -> Chunks<'_, T> {
        self.chunks(size)
    }
}
