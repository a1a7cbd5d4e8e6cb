//! Stand-in: a dense map that hands out its keys.

use std::marker::PhantomData;
use std::ops::{Index, IndexMut};
use std::slice;

use super::EntityRef;
use super::iter::{Iter, Keys};

pub struct PrimaryMap<K, V> {
    elems: Vec<V>,
    marker: PhantomData<K>,
}

impl<K: EntityRef, V> PrimaryMap<K, V> {
    pub fn new() -> Self {
        Self {
            elems: Vec::new(),
            marker: PhantomData,
        }
    }

    pub fn clear(&mut self) {
        self.elems.clear();
    }

    pub fn len(&self) -> usize {
        self.elems.len()
    }

    pub fn keys(&self) -> Keys<K> {
        Keys::with_len(self.elems.len())
    }

    pub fn values(&self) -> slice::Iter<'_, V> {
        self.elems.iter()
    }

    /// Appends an element and returns its key.
    pub fn push(&mut self, elem: V) -> K {
        self.elems.push(elem);
        K::new(self.elems.len() - 1)
    }
}

impl<K: EntityRef, V> Index<K> for PrimaryMap<K, V> {
    type Output = V;

    fn index(&self, key: K) -> &V {
        &self.elems[key.index()]
    }
}

impl<K: EntityRef, V> IndexMut<K> for PrimaryMap<K, V> {
    fn index_mut(&mut self, key: K) -> &mut V {
        &mut self.elems[key.index()]
    }
}

impl<'a, K: EntityRef, V> IntoIterator for &'a PrimaryMap<K, V> {
    type Item = (K, &'a V);
    type IntoIter = Iter<'a, K, V>;

    fn into_iter(self) -> Self::IntoIter {
        Iter::new(self.elems.iter())
    }
}
