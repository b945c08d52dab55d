//! The root against `f64::sqrt`, which is the processor's and correctly rounded.

use crate::face;
use crate::inputs::{self, Source};
use crate::tally::{Tally, bits};

/// Patterns of any 64 bits: all signs, infinities and NaNs among them.
const PATTERNS: usize = 6_000_000;
const SUBNORMALS: usize = 3_000_000;
/// Five numbers are tried around each of these.
const NEAR_HALFWAY: usize = 800_000;
const SQUARES: usize = 800_000;
/// How far from the square of a halfway number the hardest ones reach, in steps of eight.
const HARDEST: i64 = 400_000;

pub fn compare(tally: &mut Tally) {
    let mut source = Source::new(2);
    let powers = (-1074..=1023).map(inputs::power_of_two);
    for x in inputs::specials().into_iter().chain(powers) {
        around(tally, x);
        around(tally, -x);
    }
    for _ in 0..PATTERNS {
        root(tally, f64::from_bits(source.word()));
    }
    for _ in 0..SUBNORMALS {
        root(tally, source.subnormal());
    }
    for _ in 0..NEAR_HALFWAY {
        around(tally, source.near_halfway());
    }
    for _ in 0..SQUARES {
        around(tally, source.square());
    }
    for k in -HARDEST..=HARDEST {
        for x in source.hardest(8 * k + 1) {
            root(tally, x);
        }
    }
}

/// The number and the two on each side of it.
fn around(tally: &mut Tally, x: f64) {
    for y in inputs::neighbours(x) {
        root(tally, y);
    }
}

fn root(tally: &mut Tally, x: f64) {
    tally.check(
        "jj_sqrt",
        &[x.to_bits()],
        &[bits(face::jj_sqrt(x))],
        &[bits(x.sqrt())],
    );
}
