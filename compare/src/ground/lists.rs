//! The lists that calls are lent.

use super::word;
use crate::face::Four;
use crate::rows::{Arguments, Flux, Job};
use std::cell::Cell;

/// Places after each list's own that no call is lent: a write past the end shows.
const BEYOND: usize = 18;

/// In every place of a second list and of a scratch before a call.
pub const BEFORE: f64 = f64::from_bits(0x5555_5555_5555_5555);

/// Of `changed`, where every place is as expected.
pub const UNCHANGED: [u64; 6] = [0; 6];

#[derive(Clone)]
pub struct Lists {
    pub links: Vec<f64>,
    pub found: Vec<u32>,
    /// What a call of the fields or a correlation fills; the densities of an addition.
    pub second: Vec<f64>,
    pub steps: Vec<u8>,
    pub grid: Vec<f64>,
    pub scratch: Vec<f64>,
}

/// The lists as the library has them, places beyond their ends included. A call is lent the front of
/// each.
pub struct Padded {
    pub links: Vec<Cell<f64>>,
    pub found: Vec<Cell<u32>>,
    pub second: Vec<Cell<f64>>,
    pub steps: Vec<Cell<u8>>,
    pub grid: Vec<Cell<f64>>,
    pub scratch: Vec<Cell<f64>>,
}

impl Lists {
    /// With no other lists.
    pub fn new(mut links: Vec<f64>, mut found: Vec<u32>) -> Self {
        links.extend([0.5; BEYOND]);
        found.extend([7; BEYOND]);
        Self {
            links,
            found,
            second: vec![0.5; BEYOND],
            steps: vec![7; BEYOND],
            grid: vec![0.5; BEYOND],
            scratch: vec![0.5; BEYOND],
        }
    }

    /// With a second list of this length, which holds what no answer is likely to have.
    pub fn and_second(self, length: usize) -> Self {
        let second = vec![BEFORE; length + BEYOND];
        Self { second, ..self }
    }

    pub fn and_steps(self, mut steps: Vec<u8>) -> Self {
        steps.extend([7; BEYOND]);
        Self { steps, ..self }
    }

    /// With densities as the second list, a grid, and a scratch that is twice as long and not clear.
    pub fn and_flux(self, mut second: Vec<f64>, mut grid: Vec<f64>) -> Self {
        let scratch = vec![BEFORE; 2 * grid.len() + BEYOND];
        second.extend([0.5; BEYOND]);
        grid.extend([0.5; BEYOND]);
        Self {
            second,
            grid,
            scratch,
            ..self
        }
    }

    /// Puts these numbers to the front of the second list.
    pub fn fill(&mut self, numbers: &[f64]) {
        self.second[..numbers.len()].copy_from_slice(numbers);
    }

    pub fn padded(&self) -> Padded {
        Padded {
            links: cells(&self.links),
            found: cells(&self.found),
            second: cells(&self.second),
            steps: cells(&self.steps),
            grid: cells(&self.grid),
            scratch: cells(&self.scratch),
        }
    }
}

fn cells<T: Copy>(list: &[T]) -> Vec<Cell<T>> {
    list.iter().copied().map(Cell::new).collect()
}

impl Padded {
    /// Arguments that are good, with this much of the first two lists and nothing of the others.
    pub fn arguments(&self, ext: Four, links: usize, room: usize) -> Arguments<'_> {
        Arguments {
            ext,
            coupling: 6.0,
            seed: 0,
            links: &self.links[..links],
            site: 0,
            at: [0; 4],
            mu: 0,
            nu: 1,
            parity: 0,
            pass: 0,
            job: Job::default(),
            size: 1,
            found: &self.found[..room],
            rho: 0.1,
            axis: 0,
            second: &[],
            steps: &[],
            flux: Flux {
                n: [ext[1], ext[2], ext[3]].map(word),
                offsets: [1, 0, 0, 0, 1, 0, 0, 0, 1],
                length: 2,
                count: 1,
                samples: 16,
                sums: [1.0; 5],
            },
            count: 1,
            number: 0,
            grid: &[],
            scratch: &[],
        }
    }

    /// The same for these densities: so much of the list of links and of those of an addition.
    pub fn adding(&self, ext: Four, densities: u32) -> Arguments<'_> {
        let sites = ext.iter().product::<usize>();
        let a = self.arguments(ext, 72 * sites, 0);
        let count = densities as usize;
        let grid = count * a.flux.cells();
        Arguments {
            flux: Flux {
                count: densities.into(),
                ..a.flux
            },
            count: densities,
            second: &self.second[..count * sites],
            grid: &self.grid[..grid],
            scratch: &self.scratch[..2 * grid],
            ..a
        }
    }

    pub fn set(&self, lists: &Lists) {
        put(&self.links, &lists.links);
        put(&self.found, &lists.found);
        put(&self.second, &lists.second);
        put(&self.steps, &lists.steps);
        put(&self.grid, &lists.grid);
        put(&self.scratch, &lists.scratch);
    }
}

fn put<T: Copy>(padded: &[Cell<T>], list: &[T]) {
    for (place, &x) in padded.iter().zip(list) {
        place.set(x);
    }
}

/// How many places of each list are not as expected, NaNs told apart too.
pub fn changed(padded: &Padded, expected: &Lists) -> [u64; 6] {
    [
        changed_numbers(&padded.links, &expected.links),
        changed_places(&padded.found, &expected.found),
        changed_numbers(&padded.second, &expected.second),
        changed_places(&padded.steps, &expected.steps),
        changed_numbers(&padded.grid, &expected.grid),
        changed_numbers(&padded.scratch, &expected.scratch),
    ]
}

fn changed_places<T: Copy + PartialEq>(padded: &[Cell<T>], expected: &[T]) -> u64 {
    let pairs = padded.iter().zip(expected);
    pairs.map(|(a, &b)| u64::from(a.get() != b)).sum()
}

fn changed_numbers(padded: &[Cell<f64>], expected: &[f64]) -> u64 {
    let pairs = padded.iter().zip(expected);
    let differ = |(a, b): (&Cell<f64>, &f64)| u64::from(a.get().to_bits() != b.to_bits());
    pairs.map(differ).sum()
}
