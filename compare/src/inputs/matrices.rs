//! Pairs of matrices in many mixtures.

use super::Source;
use crate::face::Mat;
use crate::flat;
use crate::reference::su3::mat::Su3;

/// Numbers at an edge of something: zeros, units and what is beside 1, subnormals and normals at
/// their ends, numbers whose squares or products leave the range, infinities and NaNs.
const HARD: [u64; 24] = [
    0x0000_0000_0000_0000, // 0
    0x3ff0_0000_0000_0000, // 1
    0x3fef_ffff_ffff_ffff,
    0x3ff0_0000_0000_0001,
    0x3ff8_0000_0000_0000, // 1.5
    0x4340_0000_0000_0000, // 2^53
    0x3ca0_0000_0000_0000, // 2^-53
    0x0000_0000_0000_0001, // 2^-1074
    0x0000_0000_0000_0003,
    0x0008_0000_0000_0000, // 2^-1023
    0x000f_ffff_ffff_ffff,
    0x0010_0000_0000_0000, // 2^-1022
    0x0010_0000_0000_0001,
    0x1e60_0000_0000_0000, // 2^-537: its square is the first subnormal
    0x1e6f_ffff_ffff_ffff,
    0x2000_0000_0000_0000, // 2^-511: its square is the first normal
    0x5fef_ffff_ffff_ffff, // below 2^512: its square is finite
    0x5ff0_0000_0000_0000, // 2^512: its square is not
    0x7fd0_0000_0000_0000, // 2^1022
    0x7fef_ffff_ffff_ffff, // the last finite one
    0x7ff0_0000_0000_0000, // infinity
    0x7ff8_0000_0000_0000, // NaN
    0x7ff8_0000_0000_dead,
    0x7ff0_0000_0000_0001, // a signalling one
];

type Mixture = fn(&mut Source) -> [Mat; 2];

/// One after the other, so that each has as many pairs.
const MIXTURES: [Mixture; 18] = [
    |s| s.each(Source::ordinary),
    one_hard,
    |s| s.each(|s| s.sometimes_hard(4)),
    |s| s.each(|s| s.sometimes_hard(16)),
    |s| s.each(Source::hard),
    |s| s.each(Source::unit),
    |s| s.each(Source::unit_or_ordinary),
    unitary,
    generators,
    |s| s.each(|s| s.signed(-1022..=-500)),
    |s| s.each(|s| s.signed(-541..=-505)),
    |s| s.each(|s| s.signed(500..=1023)),
    |s| s.each(|s| s.signed(507..=513)),
    |s| s.each(|s| s.signed(-1022..=1023)),
    |s| s.each(|s| f64::from_bits(s.word())),
    |s| s.each(|s| s.subnormal().copysign(s.sign())),
    near_twins,
    dependent_rows,
];

/// The hard number that a word chooses.
pub fn hard(word: u64) -> f64 {
    let magnitude = HARD[(word >> 8) as usize % HARD.len()];
    f64::from_bits(magnitude | word << 63)
}

impl Source {
    /// The pair of this number.
    pub fn matrices(&mut self, number: usize) -> [Mat; 2] {
        MIXTURES[number % MIXTURES.len()](self)
    }

    /// Between -1 and 1, on 2^-52.
    pub fn ordinary(&mut self) -> f64 {
        (self.word() as i64 >> 11) as f64 / (1u64 << 52) as f64
    }

    pub fn hard(&mut self) -> f64 {
        hard(self.word())
    }

    /// 1 or -1, or a zero of either sign.
    pub fn unit(&mut self) -> f64 {
        (self.below(2) as f64).copysign(self.sign())
    }

    fn unit_or_ordinary(&mut self) -> f64 {
        if self.below(3) == 0 {
            self.unit()
        } else {
            self.ordinary()
        }
    }

    fn sign(&mut self) -> f64 {
        [1.0, -1.0][self.below(2) as usize]
    }

    fn signed(&mut self, exponents: std::ops::RangeInclusive<i32>) -> f64 {
        self.normal(exponents).copysign(self.sign())
    }

    /// A hard number once in so many, otherwise an ordinary one.
    pub fn sometimes_hard(&mut self, once_in: u64) -> f64 {
        if self.below(once_in) == 0 {
            self.hard()
        } else {
            self.ordinary()
        }
    }

    fn each(&mut self, mut number: impl FnMut(&mut Self) -> f64) -> [Mat; 2] {
        [(); 2].map(|()| std::array::from_fn(|_| number(self)))
    }
}

fn one_hard(source: &mut Source) -> [Mat; 2] {
    let mut pair = source.each(Source::ordinary);
    let place = source.below(36) as usize;
    pair[place / 18][place % 18] = source.hard();
    pair
}

/// On the group to rounding.
fn unitary(source: &mut Source) -> [Mat; 2] {
    source.each(Source::ordinary).map(|numbers| {
        let mut matrix = flat::matrix(&numbers);
        matrix.reunitarize();
        flat::numbers(&matrix)
    })
}

/// What the exponential is meant for: traceless and anti-Hermitian, of any size up to 1.
fn generators(source: &mut Source) -> [Mat; 2] {
    let size = source.normal(-30..=0);
    source.each(Source::ordinary).map(|numbers| {
        let part: Su3 = flat::matrix(&numbers).traceless_antihermitian();
        flat::numbers(&part.scale(size))
    })
}

/// The second is the first, but for a number at most.
fn near_twins(source: &mut Source) -> [Mat; 2] {
    let [a, _] = source.each(|s| s.sometimes_hard(40));
    let mut b = a;
    let place = source.below(18) as usize;
    b[place] = f64::from_bits(a[place].to_bits() ^ source.below(2));
    [a, b]
}

/// A second row that is zero, or the first one times a number: Gram and Schmidt leave little of it.
fn dependent_rows(source: &mut Source) -> [Mat; 2] {
    let mut pair = source.each(Source::ordinary);
    for matrix in &mut pair {
        let factor = [0.0, 1.0, -0.5, source.ordinary()][source.below(4) as usize];
        for k in 0..6 {
            matrix[6 + k] = factor * matrix[k];
        }
    }
    pair
}
