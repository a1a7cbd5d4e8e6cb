//! Stand-in: iterators that pair keys with the elements of a dense map.

use std::marker::PhantomData;
use std::{iter, slice, vec};

use super::EntityRef;

/// Iterator over the keys below a length.
pub struct Keys<K> {
    range: std::ops::Range<usize>,
    marker: PhantomData<K>,
}

impl<K> Keys<K> {
    pub fn with_len(len: usize) -> Self {
        Self {
            range: 0..len,
            marker: PhantomData,
        }
    }
}

impl<K: EntityRef> Iterator for Keys<K> {
    type Item = K;

    fn next(&mut self) -> Option<K> {
        self.range.next().map(K::new)
    }
}

impl<K: EntityRef> DoubleEndedIterator for Keys<K> {
    fn next_back(&mut self) -> Option<K> {
        self.range.next_back().map(K::new)
    }
}

/// Pairs each element of an inner iterator with its key.
pub struct Keyed<K, I> {
    elems: iter::Enumerate<I>,
    marker: PhantomData<K>,
}

impl<K, I: Iterator> Keyed<K, I> {
    pub fn new(elems: I) -> Self {
        Self {
            elems: elems.enumerate(),
            marker: PhantomData,
        }
    }
}

impl<K: EntityRef, I: Iterator> Iterator for Keyed<K, I> {
    type Item = (K, I::Item);

    fn next(&mut self) -> Option<Self::Item> {
        self.elems.next().map(|(index, elem)| (K::new(index), elem))
    }
}

pub type Iter<'a, K, V> = Keyed<K, slice::Iter<'a, V>>;
pub type IterMut<'a, K, V> = Keyed<K, slice::IterMut<'a, V>>;
pub type IntoIter<K, V> = Keyed<K, vec::IntoIter<V>>;
