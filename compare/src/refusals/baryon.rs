//! The choices for steps, offsets and accumulators. Good ones have two densities.

use super::{of, spoilt};
use crate::calls::Call;
use crate::face::{Offset, Offsets, Sums};
use crate::ground::Padded;
use crate::rows::{Arguments, Flux, Part};
use std::cell::Cell;
use std::ops::Range;

/// Enough for five densities under the largest grid of a situation.
pub const GRID: usize = 80;

const OFFSET: [Offset; 12] = [
    [2, 1, 0],
    [0, 0, 0],
    [0, 0, 1],
    [-32, 32, -32],
    [33, 0, 0],
    [0, -33, 0],
    [0, 0, 33],
    [33, -33, 33],
    [i32::MIN, 0, 0],
    [0, i32::MAX, i32::MAX],
    [i32::MIN; 3],
    [1 << 16, 1 << 16, 0],
];
const OFFSETS: [Offsets; 9] = [
    [1, 0, 0, 0, 1, 0, 0, 0, 1],
    [0; 9],
    [32, -32, 32, 0, 5, 1, 2, 3, -1],
    [33, 0, 0, 0, 1, 0, 0, 0, 1],
    [1, 0, 0, 0, -33, 0, 0, 0, 1],
    [1, 0, 0, 0, 1, 0, 0, 0, 33],
    [0, 0, 0, 0, 0, i32::MIN, 0, 0, 0],
    [i32::MAX; 9],
    [i32::MIN; 9],
];
const LENGTHS: [u64; 8] = [2, 0, 3, 64, 65, 1 << 32, 1 << 63, u64::MAX];
/// Where a list of steps begins and ends: number 97 has a bad axis, and so has every second one after
/// it.
const STEPS: [[usize; 2]; 9] = [
    [0, 6],
    [0, 0],
    [0, 96],
    [96, 97],
    [0, 97],
    [90, 98],
    [97, 98],
    [98, 100],
    [20, 120],
];
const STAIRS: [usize; 7] = [3, 2, 0, 1, 95, 96, 120];
const GRIDS: [[usize; 3]; 4] = [[2, 2, 2], [4, 2, 2], [2, 2, 4], [16, 16, 16]];
/// The sixth and the seventh ask for the good lengths, were products to wrap at 32 bits.
const COUNTS: [u32; 8] = [2, 1, 0, 4, 5, (1 << 29) + 2, (1 << 31) + 2, u32::MAX];
/// Two of these do so at 64 bits.
const HELD: [u64; 11] = [
    2,
    1,
    0,
    3,
    4,
    5,
    1 << 32,
    (1 << 32) + 2,
    (1 << 61) + 2,
    (1 << 63) + 2,
    u64::MAX,
];
const DENSITIES: [usize; 8] = [32, 31, 33, 64, 16, 0, 80, 128];
const CELLS: [usize; 7] = [16, 15, 17, 8, 0, 32, 40];
const SCRATCHES: [usize; 8] = [32, 31, 33, 16, 0, 64, 80, 2 * GRID];
const SAMPLES: [u64; 9] = [
    16,
    0,
    1,
    (1 << 53) + 1,
    1 << 57,
    u64::MAX - 17,
    u64::MAX - 16,
    u64::MAX - 1,
    u64::MAX,
];
const SUMS: [Sums; 12] = [
    [1.0; 5],
    [0.0; 5],
    [-0.0; 5],
    [0.0, 1.0, 1.0, 1.0, 1.0],
    [1.0, 0.0, -0.0, 1.0, 1.0],
    [1e-200; 5],
    [1e200; 5],
    [f64::NAN, 0.0, 1.0, 1.0, 1.0],
    [1.0, 1.0, f64::INFINITY, 1.0, 1.0],
    [1.0, 1.0, 1.0, f64::NAN, 1.0],
    [1.0, 1.0, 1.0, 1.0, f64::NEG_INFINITY],
    [f64::NAN; 5],
];
const NUMBERS: [u32; 6] = [0, 1, 2, 3, 4, u32::MAX];
const CORRELATIONS: [usize; 6] = [8, 7, 9, 0, 16, 32];

/// Every step there is, up to number 97, and then bad ones and good ones by turns.
pub fn steps() -> Vec<u8> {
    let good = (0..8).cycle().take(97);
    let mixed = (0..12).flat_map(|n| [8 + 20 * n, n % 8]);
    good.chain(mixed).collect()
}

pub fn two_densities(a: Arguments) -> Arguments {
    let flux = Flux { count: 2, ..a.flux };
    Arguments {
        flux,
        count: 2,
        ..a
    }
}

/// With lists as long as the numbers ask for, as far as there are so many.
pub fn fitted<'a>(a: Arguments<'a>, call: &Call, padded: &'a Padded) -> Arguments<'a> {
    let takes = |part| call.takes.contains(&part);
    let count = if takes(Part::Count) {
        a.count as usize
    } else {
        a.flux.count as usize
    };
    let (sites, cells) = (a.sites(), a.flux.cells());
    let grid = count.saturating_mul(cells);
    let second = call.takes.iter().map(|part| match part {
        Part::Smeared => 72 * sites,
        Part::Density => sites,
        Part::Densities => count.saturating_mul(sites),
        Part::Correlation => cells,
        _ => 0,
    });
    let steps = if takes(Part::Stairs) {
        a.offset().map(|c| c.unsigned_abs() as usize).iter().sum()
    } else {
        6
    };
    Arguments {
        links: front(&padded.links, 72 * sites),
        second: front(&padded.second, second.sum()),
        steps: front(&padded.steps, steps),
        grid: front(&padded.grid, grid),
        scratch: front(&padded.scratch, grid.saturating_mul(2)),
        ..a
    }
}

/// So many places, or all.
pub fn front<T>(list: &[Cell<T>], length: usize) -> &[Cell<T>] {
    &list[..length.min(list.len())]
}

/// The arguments with each choice for one part.
pub fn variants<'a>(part: Part, a: &Arguments<'a>, padded: &'a Padded) -> Vec<Arguments<'a>> {
    let with = |flux: Flux| Arguments { flux, ..*a };
    let second = |n: usize| Arguments {
        second: &padded.second[..n],
        ..*a
    };
    let steps = |range: Range<usize>| Arguments {
        steps: &padded.steps[range],
        ..*a
    };
    let samples = |samples| with(Flux { samples, ..a.flux });
    match part {
        Part::Offset => of(OFFSET, |[x, y, z]| {
            let offsets = [x, y, z, 33, 0, 0, 0, 0, 33];
            with(Flux { offsets, ..a.flux })
        }),
        Part::Offsets => of(OFFSETS, |offsets| with(Flux { offsets, ..a.flux })),
        Part::Length => of(LENGTHS, |length| with(Flux { length, ..a.flux })),
        Part::Steps => of(STEPS, |[start, end]| steps(start..end)),
        Part::Stairs => of(STAIRS, |n| steps(0..n)),
        Part::Cells => grids().map(|n| with(Flux { n, ..a.flux })).collect(),
        Part::Count => of(COUNTS, |count| Arguments { count, ..*a }),
        Part::Held => of(HELD, |count| with(Flux { count, ..a.flux })),
        Part::Densities => of(DENSITIES, second),
        Part::Correlation => of(CORRELATIONS, second),
        Part::Grid => of(CELLS, |n| Arguments {
            grid: &padded.grid[..n],
            ..*a
        }),
        Part::Scratch => of(SCRATCHES, |n| Arguments {
            scratch: &padded.scratch[..n],
            ..*a
        }),
        Part::Samples | Part::Asked => of(SAMPLES, samples),
        Part::Sums => of(SUMS, |sums| with(Flux { sums, ..a.flux })),
        Part::Number => of(NUMBERS, |number| Arguments { number, ..*a }),
        _ => unreachable!("a part of another call"),
    }
}

fn grids() -> impl Iterator<Item = [u64; 3]> {
    let all = GRIDS.into_iter().chain(spoilt(GRIDS[0]));
    all.map(|n| n.map(|side| side as u64))
}
