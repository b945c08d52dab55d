//! Single calls on fields of every kind, each checked by itself: updates of one link, openings with
//! any arguments, frames on any job, those that no opening or frame hands out too.

use super::EXTENTS;
use crate::calls::{FINISHED, FRAME_OVERRELAX, OPEN_OVERRELAX, OVERRELAX_LINK};
use crate::face::Four;
use crate::ground::{Ground, Lists};
use crate::inputs::Source;
use crate::kinds::{self, KINDS, Kind};
use crate::rows::{Arguments, Job};
use crate::tally::Tally;

const SEEDS: u64 = 4;
/// So many of each on a field.
const LINKS: usize = 60;
const JOBS: usize = 40;
const OPENINGS: usize = 20;

/// Good ones more often than bad ones.
const COUPLINGS: [f64; 16] = [
    6.0,
    5.7,
    0.1,
    0.0,
    -0.0,
    5.75,
    99.5,
    100.0,
    1.0,
    f64::from_bits(1),
    f64::MIN_POSITIVE,
    100.000_000_000_000_01,
    -f64::from_bits(1),
    f64::NAN,
    f64::INFINITY,
    f64::NEG_INFINITY,
];

pub fn compare(tally: &mut Tally) {
    let mut source = Source::new(9);
    for (number, kind) in KINDS.iter().enumerate() {
        for ext in EXTENTS {
            for seed in 0..if kind.draws { SEEDS } else { 1 } {
                field(tally, &mut source, kind, [number as u64, seed], ext);
            }
        }
    }
}

fn field(tally: &mut Tally, source: &mut Source, kind: &Kind, label: [u64; 2], ext: Four) {
    let links = kinds::links(kind, ext, label[1]);
    let lists = Lists::new(links.clone(), vec![]);
    let padded = lists.padded();
    let good = padded.arguments(ext, links.len(), 0);
    let sites = good.sites() as u64;
    let mut ground = Ground::new(label, ext, lists);
    for _ in 0..LINKS {
        let [mu, site] = [4, sites].map(|n| source.below(n) as usize);
        let a = Arguments {
            coupling: source.coupling(),
            mu,
            site,
            ..good
        };
        ground.check(tally, &OVERRELAX_LINK, &a, &padded);
    }
    for _ in 0..JOBS {
        let a = Arguments {
            job: job(source, sites / 2),
            size: source.size(sites / 2),
            ..good
        };
        ground.check(tally, &FRAME_OVERRELAX, &a, &padded);
        ground.check(tally, &FINISHED, &a, &padded);
    }
    for _ in 0..OPENINGS {
        let a = Arguments {
            coupling: source.coupling(),
            seed: source.word(),
            pass: source.sometimes_far(1 << 40),
            mu: source.sometimes_far(4) as usize,
            parity: source.sometimes_far(2) as usize,
            ..good
        };
        ground.check(tally, &OPEN_OVERRELAX, &a, &padded);
    }
}

/// Any numbers that row 8 lets pass, but each of the first four once in sixteen any others.
fn job(source: &mut Source, half: u64) -> Job {
    let visited = source.sometimes_far(half + 1);
    Job {
        direction: source.sometimes_far(4),
        parity: source.sometimes_far(2),
        visited,
        stuck: source.sometimes_far(visited.saturating_add(1)),
        pass: source.word(),
    }
}

impl Source {
    fn coupling(&mut self) -> f64 {
        COUPLINGS[self.below(16) as usize]
    }

    /// Below `n`, but once in sixteen at `n`, a little above, or far out.
    fn sometimes_far(&mut self, n: u64) -> u64 {
        let beyond = [0, 1, 7].map(|more| n.saturating_add(more));
        let far = [1 << 32, 1 << 63, u64::MAX - 1, u64::MAX];
        match self.below(32) {
            0 => beyond[self.below(3) as usize],
            1 => far[self.below(4) as usize],
            _ => self.below(n),
        }
    }

    /// Of a frame: often none, few or all of the sites of a parity.
    pub fn size(&mut self, half: u64) -> usize {
        let sizes = [0, 1, 2, 3, half - 1, half, half + 1, u64::MAX, 1 << 63];
        let size = match self.below(3) {
            0 => sizes[self.below(9) as usize],
            1 => self.below(half),
            _ => self.below(6),
        };
        size as usize
    }
}
