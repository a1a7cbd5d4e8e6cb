//! Stand-in: a set of entities as a bit set of fixed size.

use std::marker::PhantomData;
use std::ops::BitAnd;

use super::EntityRef;

#[derive(Clone, Copy)]
pub struct SmallEntitySet<K, W, const N: usize> {
    words: [W; N],
    marker: PhantomData<K>,
}

impl<K: EntityRef, const N: usize> SmallEntitySet<K, u64, N> {
    pub fn new() -> Self {
        Self {
            words: [0; N],
            marker: PhantomData,
        }
    }

    pub fn insert(&mut self, key: K) {
        self.words[key.index() / 64] |= 1 << (key.index() % 64);
    }

    pub fn contains(&self, key: K) -> bool {
        self.words[key.index() / 64] >> (key.index() % 64) & 1 != 0
    }
}

impl<K: EntityRef, const N: usize> BitAnd for SmallEntitySet<K, u64, N> {
    type Output = Self;

    fn bitand(mut self, other: Self) -> Self {
        for (word, other) in self.words.iter_mut().zip(other.words) {
            *word &= other;
        }
        self
    }
}

impl<K: EntityRef, const N: usize> IntoIterator for SmallEntitySet<K, u64, N> {
    type Item = K;
    type IntoIter = std::vec::IntoIter<K>;

    fn into_iter(self) -> Self::IntoIter {
        let keys = (0..N * 64).map(K::new).filter(|&key| self.contains(key));
        keys.collect::<Vec<_>>().into_iter()
    }
}
