//! Inputs, the same at every run.

mod hard_roots;
mod matrices;

pub use matrices::hard;

use std::ops::RangeInclusive;

/// PCG XSL RR 128/64 of O'Neill: not the generator under comparison.
pub struct Source(u128);

impl Source {
    /// A source of its own for each number, so that a new group changes no other's inputs.
    pub fn new(number: u128) -> Self {
        let mut source = Self(number);
        source.word();
        source.word();
        source
    }

    pub fn word(&mut self) -> u64 {
        self.0 = self
            .0
            .wrapping_mul(0x2360_ed05_1fc6_5da4_4385_df64_9fcc_f645)
            .wrapping_add(0x5851_f42d_4c95_7f2d_1405_7b7e_f767_814f);
        ((self.0 >> 64) as u64 ^ self.0 as u64).rotate_right((self.0 >> 122) as u32)
    }

    pub fn words<const N: usize>(&mut self) -> [u64; N] {
        std::array::from_fn(|_| self.word())
    }

    pub fn below(&mut self, n: u64) -> u64 {
        ((u128::from(self.word()) * u128::from(n)) >> 64) as u64
    }

    pub fn within(&mut self, range: RangeInclusive<i32>) -> i32 {
        range.start() + self.below((range.end() - range.start() + 1) as u64) as i32
    }

    /// A normal number above zero: any digits, each exponent of the range equally often.
    pub fn normal(&mut self, exponents: RangeInclusive<i32>) -> f64 {
        let exponent = self.within(exponents);
        f64::from_bits(power_of_two(exponent).to_bits() | self.word() >> 12)
    }

    /// A subnormal number above zero, or zero: each count of digits equally often.
    pub fn subnormal(&mut self) -> f64 {
        f64::from_bits(self.word() >> (12 + self.below(52)))
    }
}

/// 2^k and the words beside it, and two patterns of every other digit.
pub fn edge_words() -> Vec<u64> {
    let mut words: Vec<u64> = (0..64)
        .map(|k| 1u64 << k)
        .flat_map(|w| [w - 1, w, w + 1])
        .chain([
            0x5555_5555_5555_5555,
            0xaaaa_aaaa_aaaa_aaaa,
            u64::MAX - 1,
            u64::MAX,
        ])
        .collect();
    words.sort_unstable();
    words.dedup();
    words
}

/// Every four of the words.
pub fn crossed(words: &[u64]) -> impl Iterator<Item = [u64; 4]> {
    let n = words.len();
    (0..n.pow(4)).map(move |i| [i / n.pow(3), i / n.pow(2), i / n, i].map(|j| words[j % n]))
}

/// Zero, infinity, NaNs of both kinds, and the ends of the subnormal and the normal numbers.
pub fn specials() -> [f64; 11] {
    let quiet = f64::INFINITY.to_bits() | 1 << 51;
    let signalling = f64::INFINITY.to_bits() | 1;
    [
        0.0,
        f64::INFINITY,
        f64::from_bits(quiet),
        f64::from_bits(quiet | 0xdead),
        f64::from_bits(signalling),
        f64::from_bits(u64::MAX >> 1),
        f64::from_bits(1),
        f64::MIN_POSITIVE,
        f64::MAX,
        1.0,
        4.0,
    ]
}

/// 2^exponent, for -1074 to 1023.
pub fn power_of_two(exponent: i32) -> f64 {
    f64::from_bits(if exponent < -1022 {
        1 << (exponent + 1074)
    } else {
        ((exponent + 1023) as u64) << 52
    })
}

/// The number and the two patterns on each side of its own.
pub fn neighbours(x: f64) -> impl Iterator<Item = f64> {
    (-2..=2).map(move |step| f64::from_bits(x.to_bits().wrapping_add_signed(step)))
}
