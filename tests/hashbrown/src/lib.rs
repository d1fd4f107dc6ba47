//! Stands in for the crate of this name, of which the original sources use the map alone; they never read its order. The
//! standard library's hash is slow beside that crate's, so a quick one is in its place: the original's times are measured.

use std::hash::{BuildHasherDefault, Hasher};
use std::ops::{Deref, DerefMut};

type Map<K, V> = std::collections::HashMap<K, V, BuildHasherDefault<Folding>>;

#[derive(Clone, Debug)]
pub struct HashMap<K, V>(Map<K, V>);

impl<K, V> HashMap<K, V> {
    #[must_use]
    pub fn new() -> Self {
        Self(Map::default())
    }
}

impl<K, V> Default for HashMap<K, V> {
    fn default() -> Self {
        Self::new()
    }
}

impl<K, V> Deref for HashMap<K, V> {
    type Target = Map<K, V>;

    fn deref(&self) -> &Map<K, V> {
        &self.0
    }
}

impl<K, V> DerefMut for HashMap<K, V> {
    fn deref_mut(&mut self) -> &mut Map<K, V> {
        &mut self.0
    }
}

/// Each word is multiplied in, and the product's two halves are folded together.
#[derive(Clone, Copy, Default)]
pub struct Folding(u64);

impl Folding {
    #[inline]
    fn word(&mut self, word: u64) {
        let product = u128::from(self.0 ^ word) * 0x9e37_79b9_7f4a_7c15;
        let [low, high] = [product, product >> 64].map(|half| (half & u128::from(u64::MAX)) as u64);
        // A word that equals the state must not leave 0.
        self.0 = low ^ high ^ 0x243f_6a88_85a3_08d3;
    }
}

impl Hasher for Folding {
    #[inline]
    fn write(&mut self, bytes: &[u8]) {
        let (words, rest) = bytes.as_chunks();
        for &word in words {
            self.word(u64::from_le_bytes(word));
        }
        let mut last = [0; 8];
        last[..rest.len()].copy_from_slice(rest);
        self.word(u64::from_le_bytes(last));
    }

    #[inline]
    fn write_u8(&mut self, number: u8) {
        self.word(number.into());
    }

    #[inline]
    fn write_u32(&mut self, number: u32) {
        self.word(number.into());
    }

    #[inline]
    fn write_u64(&mut self, number: u64) {
        self.word(number);
    }

    #[inline]
    fn write_usize(&mut self, number: usize) {
        self.word(number as u64);
    }

    #[inline]
    fn finish(&self) -> u64 {
        self.0
    }
}
