//! Stand-in: lists that lie one after the other in a shared pool.

use std::marker::PhantomData;

/// A list of elements in a pool.
pub struct CompactList<T> {
    start: usize,
    len: usize,
    marker: PhantomData<T>,
}

impl<T> CompactList<T> {
    pub fn from_iter(iter: impl IntoIterator<Item = T>, pool: &mut CompactListPool<T>) -> Self {
        let start = pool.elems.len();
        pool.elems.extend(iter);
        Self {
            start,
            len: pool.elems.len() - start,
            marker: PhantomData,
        }
    }

    pub fn len(&self) -> usize {
        self.len
    }

    pub fn as_slice<'a>(&self, pool: &'a CompactListPool<T>) -> &'a [T] {
        &pool.elems[self.start..self.start + self.len]
    }
}

pub struct CompactListPool<T> {
    elems: Vec<T>,
}

impl<T> CompactListPool<T> {
    pub fn new() -> Self {
        Self { elems: Vec::new() }
    }

    pub fn clear(&mut self) {
        self.elems.clear();
    }
}
