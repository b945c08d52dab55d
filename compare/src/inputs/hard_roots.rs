//! Numbers whose roots are hard to round. Each is scaled by a random power of four, over the whole
//! range of exponents: the root's digits stay the same until the number itself becomes subnormal.

use super::{Source, power_of_two};

impl Source {
    /// The f64 nearest to the square of a number halfway between two f64. The square has 107 digits
    /// or 108, and rounding it to 53 moves the root by up to a third of a step: near, but not hard.
    pub fn near_halfway(&mut self) -> f64 {
        let halfway = u128::from(1 << 53 | self.word() >> 11 | 1);
        self.scaled((halfway * halfway) as f64, 106)
    }

    /// A square of at most 52 digits, each count of digits equally often.
    pub fn square(&mut self) -> f64 {
        let root = 1 | self.word() >> (38 + self.below(26));
        self.scaled((root * root) as f64, 2 * root.ilog2())
    }

    /// The f64 with roots closest to halfway, as in Kahan's "A Test for Correctly Rounded SQRT": each
    /// is h^2 - c for a small c and an h halfway between two f64, an odd number of 54 digits. An odd
    /// square is 1 past a multiple of 8, and so must c be.
    pub fn hardest(&mut self, c: i64) -> impl Iterator<Item = f64> {
        [54, 55]
            .into_iter()
            .flat_map(move |zeros| squares_less(c, zeros))
            .map(|x| self.scaled(x as f64, 106))
    }

    /// `x` over 2^`digits`, which is at least 1 and less than 4, times a random power of four.
    fn scaled(&mut self, x: f64, digits: u32) -> f64 {
        x * power_of_two(-(digits as i32)) * power_of_two(2 * self.within(-537..=511))
    }
}

/// Each h^2 - c that ends in `zeros` digits 0 and has at most 53 before them, for h of 54 digits.
fn squares_less(c: i64, zeros: u32) -> impl Iterator<Item = u128> {
    // The four roots of c modulo 2^zeros are r and half - r, and those plus half.
    let half = 1 << (zeros - 1);
    let r = root_modulo(c, zeros) % half;
    [r, half - r, half + r, half + (half - r)]
        .into_iter()
        .filter(|h| h.ilog2() == 53)
        .map(move |h| (u128::from(h) * u128::from(h)).wrapping_add_signed(-i128::from(c)))
        .filter(move |x| x >> zeros < 1 << 53)
}

/// A root of c modulo 2^digits, a digit a turn: at each, the square of y is c modulo 2^k, and adding
/// 2^(k - 1) to y turns the digit k of its square and none below.
fn root_modulo(c: i64, digits: u32) -> u64 {
    (3..digits).fold(1u64, |y, k| {
        let wrong = (y.wrapping_mul(y) ^ c as u64) >> k & 1;
        y + (wrong << (k - 1))
    })
}
