//! The calls of the reference's `fields.rs`: smearing, the clover and the densities, on fields of every
//! kind, and on some made to have one number at an edge or one answer out of range.

mod brink;
mod lists;
mod single;
mod spoilt;

use crate::face::Four;
use crate::inputs::Source;
use crate::kinds::{self, KINDS};
use crate::lattice::SMALL;
use crate::tally::Tally;
pub use lists::of as densities;
use lists::{Actions, Field};

/// So many seeds on each of the small extents, for kinds that draw.
const SEEDS: u64 = 3;

/// Every kind once on each of these.
const MIDDLE: [Four; 2] = [[4, 4, 4, 4], [2, 10, 2, 14]];
/// These kinds on the large ones, with two steps; of the first kind the lists on the largest one.
const LARGE: [Four; 2] = [[8, 8, 8, 8], [16, 4, 2, 16]];
const ON_LARGE: [&str; 4] = ["group", "units", "damaged", "last unsound"];
const LARGEST: Four = [16, 16, 16, 16];

/// Steps' sizes: zeros, usual ones, both sides of 1 and 2, large ones, the smallest ones, and none.
const RHOS: [f64; 22] = [
    0.1,
    0.0,
    -0.0,
    -0.3,
    1.0,
    1.0000000000000002,
    -1.0,
    2.0,
    2.0000000000000004,
    -2.0,
    1e3,
    -1e8,
    1e24,
    1e26,
    1e100,
    1e200,
    -f64::MAX,
    f64::from_bits(1),
    -f64::MIN_POSITIVE,
    f64::NAN,
    f64::INFINITY,
    f64::NEG_INFINITY,
];

pub fn compare(tally: &mut Tally) {
    let mut source = Source::new(12);
    let mut actions = Actions::default();
    lists::cold(tally);
    for (number, kind) in KINDS.iter().enumerate() {
        let mut on = |ext: Four, seed: u64, steps: usize| {
            let links = kinds::links(kind, ext, seed);
            let label = [number as u64, seed];
            single::compare(tally, &mut source, label, ext, &links);
            let field = Field::new(label, ext, links);
            field.densities(tally, &mut actions);
            for rho in source.rhos(steps) {
                field.step(tally, rho);
            }
        };
        for ext in SMALL {
            on(ext, 0, RHOS.len());
            (1..SEEDS)
                .filter(|_| kind.draws)
                .for_each(|seed| on(ext, seed, 3));
        }
        MIDDLE.into_iter().for_each(|ext| on(ext, SEEDS, 3));
        if ON_LARGE.contains(&kind.name) {
            LARGE.into_iter().for_each(|ext| on(ext, SEEDS, 0));
        }
    }
    largest(tally, &mut actions);
    spoilt::compare(tally, &mut source, &mut actions);
    brink::compare(tally, &mut source, &mut actions);
    println!("fields: {actions}");
}

fn largest(tally: &mut Tally, actions: &mut Actions) {
    let number = kinds::number_of(ON_LARGE[0]);
    let links = kinds::links(&KINDS[number], LARGEST, 0);
    let field = Field::new([number as u64, 0], LARGEST, links);
    field.densities(tally, actions);
    field.step(tally, 0.1);
}

impl Source {
    /// So many of the listed ones, one after the other from any of them, and two drawn ones.
    fn rhos(&mut self, listed: usize) -> Vec<f64> {
        let start = self.below(RHOS.len() as u64) as usize;
        let drawn = [(); 2].map(|()| self.rho());
        let listed = RHOS.into_iter().cycle().skip(start).take(listed);
        listed.chain(drawn).collect()
    }

    /// Between -1 and 1, or of either sign and any size, or of a size with which the exponential goes
    /// out of range, or subnormal.
    fn rho(&mut self) -> f64 {
        let size = match self.below(4) {
            0 => self.ordinary(),
            1 => self.normal(-1022..=1023),
            2 => self.normal(20..=100),
            _ => self.subnormal(),
        };
        size.copysign(self.ordinary())
    }
}
