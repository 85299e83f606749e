//! A fast hash for metastates and joined states: each word is multiplied in, and the high half of the product folded
//! onto the low.

use std::hash::{BuildHasherDefault, Hasher};

pub type FastHash = BuildHasherDefault<FoldingHasher>;

#[derive(Default)]
pub struct FoldingHasher {
    hash: u64,
}

impl Hasher for FoldingHasher {
    #[inline]
    fn write_u64(&mut self, word: u64) {
        let product = u128::from(self.hash ^ word) * 0x9e37_79b9_7f4a_7c15;
        self.hash = (product >> 64) as u64 ^ product as u64;
    }

    /// For keys that are not whole words; those of metastates and joined states are.
    fn write(&mut self, bytes: &[u8]) {
        for &byte in bytes {
            self.write_u64(u64::from(byte));
        }
    }

    #[inline]
    fn finish(&self) -> u64 {
        self.hash
    }
}
