//! A map from class words and other addresses. Its hash is faster than the one that `HashMap` has otherwise, and no more than that
//! depends on it.

use std::collections::HashMap;
use std::hash::{BuildHasherDefault, Hasher};

pub type WordMap<T> = HashMap<u64, T, BuildHasherDefault<WordHasher>>;

/// Hashes a number by a multiplication.
#[derive(Default)]
pub struct WordHasher(u64);

impl Hasher for WordHasher {
    fn write(&mut self, bytes: &[u8]) {
        for byte in bytes {
            self.write_u64(u64::from(*byte));
        }
    }

    fn write_u64(&mut self, word: u64) {
        let product = u128::from(self.0 ^ word) * 0x9E37_79B9_7F4A_7C15;
        self.0 = product as u64 ^ (product >> 64) as u64;
    }

    fn finish(&self) -> u64 {
        self.0
    }
}
