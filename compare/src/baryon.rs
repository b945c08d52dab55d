//! The calls of the reference's `baryon.rs`: every staircase, paths and loops on fields of every kind,
//! and accumulators, those that no call hands out too.

mod fluxes;
mod forged;
mod staircases;
mod walks;

use crate::face::Offsets;
use crate::inputs::Source;
use crate::tally::Tally;

/// Quarks on the axes, all at the junction, and at offsets where distances nearly tie; the largest
/// ones; equal ones.
const QUARKS: [Offsets; 12] = [
    [1, 0, 0, 0, 1, 0, 0, 0, 1],
    [0; 9],
    [0, 5, 1, 2, 3, 1, 3, 1, 2],
    [0, -5, 1, -2, 3, -1, 3, -1, -2],
    [1, 1, 0, 2, 1, 0, 0, 0, -2],
    [32, 32, 32, -32, -32, -32, 0, 0, 0],
    [0, 0, 32, 0, -32, 0, 32, 0, 0],
    [32, 31, 30, 1, -2, 3, -7, 0, 4],
    [3, -2, 1, 3, -2, 1, 3, -2, 1],
    [16, 8, -4, -5, 0, 0, 0, 2, 2],
    [-1, 0, 0, 1, 0, 0, 0, 0, 0],
    [4, 4, 4, -4, 4, -4, 6, -6, 6],
];
const LENGTHS: [u64; 9] = [2, 0, 1, 3, 64, 4, 5, 16, 63];

pub fn compare(tally: &mut Tally) {
    let mut source = Source::new(13);
    staircases::compare(tally);
    walks::compare(tally, &mut source);
    fluxes::compare(tally, &mut source);
    forged::compare(tally, &mut source);
}

impl Source {
    /// Three quarks that are listed, or drawn, mostly near.
    fn quarks(&mut self) -> Offsets {
        match self.below(8) {
            0 => QUARKS[self.below(QUARKS.len() as u64) as usize],
            1 => std::array::from_fn(|_| self.within(-32..=32)),
            _ => std::array::from_fn(|_| self.within(-3..=3)),
        }
    }

    fn length(&mut self) -> u64 {
        LENGTHS[self.below(LENGTHS.len() as u64) as usize]
    }
}
