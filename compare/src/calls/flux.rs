//! The accumulator.

use super::{Call, checked, numbers, stored, sum};
use crate::face::{self, Accumulator};
use crate::reference::su3::baryon::FluxAccumulator;
use crate::reference::su3::lattice::Su3Lattice;
use crate::rows::Part::{
    Asked, Cells, Correlation, Count, Densities, Extents, Grid, Held, Length, Links, Number,
    Offsets, Samples, Scratch, Sums,
};
use crate::rows::{self, Arguments, Flux};
use crate::tally::{Words, answer, words};
use std::cell::Cell;

pub const NEW: Call = Call {
    name: "jj_new",
    takes: &[Cells, Grid, Offsets, Length, Count],
    width: 11,
    rattle: |a| {
        let (n, length) = (a.flux.n.map(|n| n as usize), a.flux.length as usize);
        let ((refusal, counts), sums) =
            face::new_accumulator(&n, &a.flux.offsets, length, a.count, a.grid);
        answer(refusal, counts.into_iter().chain(words(&sums)))
    },
    rust: |a, _| {
        let new = Flux {
            count: a.count.into(),
            samples: 0,
            sums: [0.0; 5],
            ..a.flux
        };
        answer(0, held(&new.arrays()))
    },
    keeps: None,
    writes: Some(|a, _, lists| lists.grid[..a.grid.len()].fill(0.0)),
};

pub const ADD: Call = Call {
    name: "jj_add",
    takes: &[
        Extents, Cells, Links, Densities, Grid, Scratch, Offsets, Length, Count, Held, Samples,
        Sums,
    ],
    width: 0,
    rattle: |a| {
        let lists = [a.grid, a.scratch];
        let (refusal, after) =
            face::add(a.flux.arrays(), &a.ext, a.count, a.links, a.second, lists);
        answer(refusal, held(&after))
    },
    rust: |a, lattice| match Added::new(a, lattice).accepted() {
        Some(added) => answer(0, held(&added.flux.arrays())),
        None => answer(10, held(&a.flux.arrays())),
    },
    keeps: Some(|a| held(&a.flux.arrays())),
    writes: Some(|a, lattice, lists| {
        lists.scratch[..a.scratch.len()].fill(0.0);
        if let Some(added) = Added::new(a, lattice).accepted() {
            lists.grid[..added.grid.len()].copy_from_slice(&added.grid);
        }
    }),
};

pub const MEAN_LOOP: Call = Call {
    name: "jj_mean_loop",
    takes: &[Cells, Offsets, Length, Held, Asked, Sums],
    width: 1,
    rattle: |a| numbers(face::mean_loop(&a.flux.arrays())),
    rust: |a, _| checked(&[reference(&a.flux, &[]).mean_loop()]),
    keeps: None,
    writes: None,
};

pub const CORRELATION: Call = Call {
    name: "jj_correlation",
    takes: &[
        Cells,
        Grid,
        Correlation,
        Offsets,
        Length,
        Held,
        Number,
        Asked,
        Sums,
    ],
    width: 0,
    rattle: |a| {
        let refusal = face::correlation(&a.flux.arrays(), a.number, a.grid, a.second);
        answer(refusal, [])
    },
    rust: |a, _| stored(&correlation(a)),
    keeps: None,
    writes: Some(|a, _, lists| lists.fill(&correlation(a))),
};

/// An accumulator and its grid after an addition that no row before 10 refuses.
pub struct Added {
    pub flux: Flux,
    pub grid: Vec<f64>,
    /// The reference's own, after the same addition.
    pub own: FluxAccumulator,
}

impl Added {
    /// By the reference, but that the samples are a whole number that stops at its end, and that each
    /// density's sum begins at +0. In some versions of Rust's library it begins at -0, and so is -0
    /// where all its terms are; added to a sum of -0, which no sum from +0 comes to, that shows.
    pub fn new(a: &Arguments, lattice: &Su3Lattice) -> Self {
        let densities: Vec<f64> = a.second.iter().map(Cell::get).collect();
        let each: Vec<&[f64]> = densities.chunks(a.sites()).collect();
        let mut own = reference(&a.flux, a.grid);
        own.add(lattice, &each);
        let mut flux = a.flux;
        flux.samples = flux.samples.saturating_add(a.sites() as u64);
        let [w, s @ ..] = &mut flux.sums;
        *w = own.sums().0;
        for (s, density) in s.iter_mut().zip(each) {
            *s += sum(density);
        }
        let grid = own.grid();
        Self { flux, grid, own }
    }

    /// Where every number is finite, those sums too that the count does not reach.
    pub fn accepted(self) -> Option<Self> {
        let out = rows::not_finite(&self.grid) || rows::not_finite(&self.flux.sums);
        (!out).then_some(self)
    }
}

/// The reference's accumulator with the same numbers.
fn reference(flux: &Flux, grid: &[Cell<f64>]) -> FluxAccumulator {
    let (n, length) = (flux.n.map(|n| n as usize), flux.length as usize);
    let numbers: Vec<f64> = grid.iter().map(Cell::get).collect();
    let ws = numbers.chunks(flux.cells()).map(<[f64]>::to_vec).collect();
    let [w, s @ ..] = flux.sums;
    let (count, samples) = (flux.count as usize, flux.samples as f64);
    FluxAccumulator::new(n, flux.quarks(), length, count).with(ws, s[..count].to_vec(), w, samples)
}

/// The reference's of the density's number.
pub fn correlation(a: &Arguments) -> Vec<f64> {
    reference(&a.flux, a.grid).correlation(a.number as usize)
}

/// The accumulator's numbers but for its offsets, which no call hands back.
fn held(accumulator: &Accumulator) -> Words {
    [accumulator.counts.to_vec(), words(&accumulator.sums)].concat()
}
