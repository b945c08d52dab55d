//! Runs of frames on fields of every kind: an opening and then any list of frames, refused ones among
//! them.

use super::EXTENTS;
use super::field::{Field, List, Run};
use crate::face::Four;
use crate::inputs::Source;
use crate::kinds::{self, KINDS};
use crate::tally::Tally;
use crate::update;

/// Sweeps of eight half-sweeps on a field of every kind and extents, each with its seed.
const SWEEPS: u64 = 5;
/// Half-sweeps of any direction and parity, each on a field of its own.
const RUNS: u64 = 12;
/// At most this many frames of any size before those that end a run.
const FRAMES: u64 = 12;

/// One half-sweep of these kinds on each of these.
const LARGE: [Four; 2] = [[8, 8, 8, 8], [16, 16, 16, 16]];
const ON_LARGE: [&str; 2] = ["group", "damaged"];

pub fn compare(tally: &mut Tally) {
    let mut source = Source::new(10);
    for (number, kind) in KINDS.iter().enumerate() {
        for ext in EXTENTS {
            for seed in 0..SWEEPS {
                Field::new(kind, [number as u64, seed], ext).sweep(tally, &mut source);
            }
            for seed in SWEEPS..SWEEPS + RUNS {
                let [mu, parity] = [4, 2].map(|n| source.below(n) as usize);
                let mut field = Field::new(kind, [number as u64, seed], ext);
                field.pass = source.word() / 2;
                field.half_sweep(tally, &mut source, mu, parity);
            }
        }
    }
    for ext in LARGE {
        for name in ON_LARGE {
            let number = kinds::number_of(name);
            let mut field = Field::new(&KINDS[number], [number as u64, 0], ext);
            field.half_sweep(tally, &mut source, 2, 1);
        }
    }
}

impl Field {
    /// Eight half-sweeps in order: the reference's sweep if no link was stuck in any.
    fn sweep(&mut self, tally: &mut Tally, source: &mut Source) {
        let mut lattice = self.lattice();
        let each = (0..8).map(|n| self.half_sweep(tally, source, n / 2, n % 2));
        if each.sum::<u64>() == 0 {
            lattice.overrelax_sweep();
            let rattle = [self.differing(&lattice), self.pass];
            let rust = [0, lattice.pass()];
            tally.check("overrelax_sweep", &self.inputs(), &rattle, &rust);
        }
    }

    /// How many links were stuck in it.
    fn half_sweep(
        &mut self,
        tally: &mut Tally,
        source: &mut Source,
        mu: usize,
        parity: usize,
    ) -> u64 {
        let opening = self.lattice();
        let mut run = self.open(tally, source.word(), mu, parity);
        let half = run.visits.len() as u64;
        for _ in 0..source.below(FRAMES + 1) {
            self.any_frame(tally, source, &mut run);
        }
        // To the end, and past it.
        while run.sum < half.into() {
            let size = 1 + source.below(2 * half) as usize;
            self.frame(tally, &mut run, List::Own(self.numbers()), size);
        }
        self.any_frame(tally, source, &mut run);
        self.against_half_sweep(tally, opening, &run);
        update::stuck(&run.visits)
    }

    /// Of any size, and four times in ten with a list of wrong length: a number less or more than
    /// there should be, none at all, or some of another field's.
    fn any_frame(&mut self, tally: &mut Tally, source: &mut Source, run: &mut Run) {
        let (n, others) = (self.numbers(), self.other.links.len());
        let list = match source.below(10) {
            0 => List::Own(n - 1),
            1 => List::Own(n + 1),
            2 => List::Own(0),
            3 => match source.below(others as u64 + 1) as usize {
                m if m == n => List::Other(m - 1),
                m => List::Other(m),
            },
            _ => List::Own(n),
        };
        let size = source.size(run.visits.len() as u64);
        self.frame(tally, run, list, size);
    }
}
