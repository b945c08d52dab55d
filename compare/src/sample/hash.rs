//! FNV-1a, 64 bits, over words from their lowest byte.

use crate::tally::words;
use std::fmt;

pub struct Hash(u64);

impl Default for Hash {
    fn default() -> Self {
        Self(0xcbf2_9ce4_8422_2325)
    }
}

impl Hash {
    pub fn over(words: impl Iterator<Item = u64>) -> Self {
        let mut hash = Self::default();
        words.for_each(|word| hash.add(&[word]));
        hash
    }

    pub fn of_numbers(numbers: &[f64]) -> Self {
        Self::over(words(numbers).into_iter())
    }

    pub fn add(&mut self, words: &[u64]) {
        for byte in words.iter().flat_map(|word| word.to_le_bytes()) {
            self.0 = (self.0 ^ u64::from(byte)).wrapping_mul(0x0000_0100_0000_01b3);
        }
    }
}

impl fmt::Display for Hash {
    fn fmt(&self, f: &mut fmt::Formatter<'_>) -> fmt::Result {
        write!(f, "{:016x}", self.0)
    }
}
