//! Accumulators as a host has them: a new one, and then several additions of fields of one kind, with
//! different extents in time. The unchanged Rust's accumulator goes along.

use crate::calls::{ADD, Added, CORRELATION, Call, MEAN_LOOP, NEW, checked};
use crate::fields;
use crate::flat;
use crate::ground::{BEFORE, Ground, Lists};
use crate::inputs::Source;
use crate::kinds::{self, KINDS};
use crate::reference::su3::baryon::FluxAccumulator;
use crate::reference::su3::lattice::Su3Lattice;
use crate::rows::{self, Arguments, Flux};
use crate::tally::Tally;

/// Every kind on each of these, with one density to four.
const GRIDS: [[usize; 3]; 5] = [[2, 2, 2], [4, 2, 2], [2, 4, 2], [2, 2, 6], [2, 4, 4]];
/// One addition each, with these extents in time.
const TIMES: [usize; 4] = [2, 4, 2, 6];

/// Kinds on larger grids, with so many densities and these extents in time.
const LARGE: [(&str, [usize; 3], u32, [usize; 2]); 6] = [
    ("group", [8, 8, 8], 2, [8, 4]),
    ("units", [4, 6, 8], 3, [2, 8]),
    ("damaged", [2, 10, 14], 4, [2, 6]),
    ("raw", [2, 14, 10], 1, [4, 2]),
    ("smooth", [16, 2, 4], 3, [16, 2]),
    ("group", [16, 16, 16], 1, [2, 2]),
];

/// An accumulator as it should be.
struct Run {
    /// Of the kind.
    number: usize,
    n: [usize; 3],
    flux: Flux,
    grid: Vec<f64>,
    own: FluxAccumulator,
}

pub fn compare(tally: &mut Tally, source: &mut Source) {
    // Additions that were accepted and those that row 10 refused.
    let mut met = [0; 2];
    let mut on = |number: usize, n: [usize; 3], count: u32, times: &[usize]| {
        let mut run = Run::new(tally, source, number, n, count);
        for (seed, &nt) in (0..).zip(times) {
            met[usize::from(run.add(tally, source, seed, nt))] += 1;
            run.means(tally);
        }
    };
    for number in 0..KINDS.len() {
        for n in GRIDS {
            (1..=4).for_each(|count| on(number, n, count, &TIMES));
        }
    }
    for (name, n, count, times) in LARGE {
        on(kinds::number_of(name), n, count, &times);
    }
    assert!(!met.contains(&0), "{met:?}");
}

impl Run {
    /// A new accumulator, on a grid that is not clear.
    fn new(
        tally: &mut Tally,
        source: &mut Source,
        number: usize,
        n: [usize; 3],
        count: u32,
    ) -> Self {
        let numbers = count as usize * n.iter().product::<usize>();
        let (ext, lists) = (over(2, n), empty().and_flux(vec![], vec![BEFORE; numbers]));
        let padded = lists.padded();
        let good = padded.arguments(ext, 0, 0);
        let flux = Flux {
            offsets: source.quarks(),
            length: source.length(),
            count: count.into(),
            samples: 0,
            sums: [0.0; 5],
            ..good.flux
        };
        let a = Arguments {
            flux,
            count,
            grid: &padded.grid[..numbers],
            ..good
        };
        Ground::bare(ext, lists).check(tally, &NEW, &a, &padded);
        let length = flux.length as usize;
        Self {
            number,
            n,
            flux,
            grid: vec![0.0; numbers],
            own: FluxAccumulator::new(n, flux.quarks(), length, count as usize),
        }
    }

    /// Whether row 10 refused it.
    fn add(&mut self, tally: &mut Tally, source: &mut Source, seed: u64, nt: usize) -> bool {
        let ext = over(nt, self.n);
        let links = kinds::links(&KINDS[self.number], ext, seed);
        let count = self.flux.count as usize;
        let densities = source.densities(&flat::lattice(ext, &links), count);
        let lists = Lists::new(links, vec![]).and_flux(densities.concat(), self.grid.clone());
        let padded = lists.padded();
        let mut ground = Ground::new([self.number as u64, seed], ext, lists);
        let a = Arguments {
            flux: self.flux,
            ..padded.adding(ext, count as u32)
        };
        ground.check(tally, &ADD, &a, &padded);
        let Some(added) = Added::new(&a, &ground.lattice).accepted() else {
            return true;
        };
        (self.flux, self.grid) = (added.flux, added.grid);
        let each: Vec<&[f64]> = densities.iter().map(Vec::as_slice).collect();
        self.own.add(&ground.lattice, &each);
        false
    }

    /// Mean loop and correlations, once more by the Rust's own accumulator where no row holds.
    fn means(&self, tally: &mut Tally) {
        let (ext, cells) = (over(2, self.n), self.flux.cells());
        let lists = empty().and_flux(vec![BEFORE; cells], self.grid.clone());
        let padded = lists.padded();
        let mut ground = Ground::bare(ext, lists);
        let a = Arguments {
            flux: self.flux,
            grid: &padded.grid[..self.grid.len()],
            second: &padded.second[..cells],
            ..padded.arguments(ext, 0, 0)
        };
        let accepted = |call: &Call, a: &Arguments| rows::refusal(call.takes, a) == 0;
        ground.check(tally, &MEAN_LOOP, &a, &padded);
        if accepted(&MEAN_LOOP, &a) {
            let own = checked(&[self.own.mean_loop()]);
            ground.hold(tally, &MEAN_LOOP, &a, &padded, own);
        }
        for number in 0..=self.flux.count as u32 {
            let a = Arguments { number, ..a };
            ground.check(tally, &CORRELATION, &a, &padded);
            if accepted(&CORRELATION, &a) {
                let own = self.own.correlation(number as usize);
                ground.fill(tally, &CORRELATION, &a, &padded, &own);
            }
        }
    }
}

fn over(nt: usize, [nx, ny, nz]: [usize; 3]) -> [usize; 4] {
    [nt, nx, ny, nz]
}

fn empty() -> Lists {
    Lists::new(vec![], vec![])
}

impl Source {
    /// So many, most of them the field's own.
    fn densities(&mut self, lattice: &Su3Lattice, count: usize) -> Vec<Vec<f64>> {
        let own = fields::densities(&lattice.field_strength());
        let mut density = |own: &Vec<f64>| match self.below(16) {
            0 => self.many(own.len(), |s| s.sometimes_hard(40)),
            1 => self.many(own.len(), Source::unit),
            2 => self.many(own.len(), |s| s.normal(1010..=1023)),
            3 => self.many(own.len(), Source::subnormal),
            4 => vec![-0.0; own.len()],
            5..=8 => self.many(own.len(), Source::ordinary),
            _ => own.clone(),
        };
        own.iter().take(count).map(&mut density).collect()
    }

    pub fn many(&mut self, numbers: usize, mut number: impl FnMut(&mut Self) -> f64) -> Vec<f64> {
        (0..numbers).map(|_| number(self)).collect()
    }
}
