//! Paths of any steps, lines in time and loops on fields of every kind.

use super::{LENGTHS, QUARKS};
use crate::calls::{BARYON_LOOP, PATH, TIME_LINE};
use crate::face::Four;
use crate::ground::{Ground, Lists, Padded};
use crate::inputs::Source;
use crate::kinds::{self, KINDS, Kind};
use crate::lattice::SMALL;
use crate::rows::{Arguments, Flux};
use crate::tally::Tally;

/// On each of the small extents, for kinds that draw.
const SEEDS: u64 = 2;
/// Every kind once on each of these.
const MIDDLE: [Four; 3] = [[4, 4, 4, 4], [2, 10, 2, 14], [16, 2, 6, 4]];
const LARGEST: Four = [16, 16, 16, 16];

/// So many of each on a field.
const PATHS: usize = 60;
const LOOPS: usize = 24;

/// In a field's list of steps: of each axis and sense as many as the longest path has, then any, then
/// any with a bad axis here and there.
const STRAIGHT: usize = 96;
const ANY: usize = 600;
const MIXED: usize = 300;

pub fn compare(tally: &mut Tally, source: &mut Source) {
    for (number, kind) in KINDS.iter().enumerate() {
        let mut on = |ext: Four, seed: u64| {
            let label = [number as u64, seed];
            field(tally, source, kind, label, ext);
        };
        for ext in SMALL {
            (0..if kind.draws { SEEDS } else { 1 }).for_each(|seed| on(ext, seed));
        }
        MIDDLE.into_iter().for_each(|ext| on(ext, SEEDS));
    }
    let group = kinds::number_of("group");
    field(tally, source, &KINDS[group], [group as u64, 0], LARGEST);
}

fn field(tally: &mut Tally, source: &mut Source, kind: &Kind, label: [u64; 2], ext: Four) {
    let links = kinds::links(kind, ext, label[1]);
    let lists = Lists::new(links.clone(), vec![]).and_steps(source.steps());
    let padded = lists.padded();
    let good = padded.arguments(ext, links.len(), 0);
    let mut ground = Ground::new(label, ext, lists);
    paths(tally, source, &mut ground, &good, &padded);
    lines(tally, source, &mut ground, &good, &padded);
    loops(tally, source, &mut ground, &good, &padded);
}

/// Each is a piece of the one list of steps; a few are one step too long.
fn paths(
    tally: &mut Tally,
    source: &mut Source,
    ground: &mut Ground,
    a: &Arguments,
    padded: &Padded,
) {
    let starts = 8 * STRAIGHT + ANY + MIXED - STRAIGHT;
    for number in 0..PATHS {
        let length = match number {
            0 => 0,
            1 | 2 => 95 + number,
            // Short ones more often: of many factors few kinds have a finite product.
            _ => {
                let most = source.below(98);
                source.below(1 + most) as usize
            }
        };
        let start = source.below(starts as u64) as usize;
        let a = Arguments {
            site: source.below(a.sites() as u64) as usize,
            steps: &padded.steps[start..start + length],
            ..*a
        };
        ground.check(tally, &PATH, &a, padded);
    }
}

/// Of every length from one site, and of any from others.
fn lines(
    tally: &mut Tally,
    source: &mut Source,
    ground: &mut Ground,
    a: &Arguments,
    padded: &Padded,
) {
    let sites = a.sites() as u64;
    let one = source.below(sites);
    let each = (0..=65).map(|length| (one, length));
    let any = (0..24).map(|_| (source.below(sites), source.length()));
    for (site, length) in each.chain(any) {
        let a = walk(a, site, a.flux.offsets, length);
        ground.check(tally, &TIME_LINE, &a, padded);
    }
}

/// The listed quarks with lengths that come round, at any site each, then any quarks.
fn loops(
    tally: &mut Tally,
    source: &mut Source,
    ground: &mut Ground,
    a: &Arguments,
    padded: &Padded,
) {
    let sites = a.sites() as u64;
    for number in 0..LOOPS {
        let offsets = match QUARKS.get(number) {
            Some(listed) => *listed,
            None => source.quarks(),
        };
        for length in [LENGTHS[number % 5], source.length()] {
            let a = walk(a, source.below(sites), offsets, length);
            ground.check(tally, &BARYON_LOOP, &a, padded);
        }
    }
}

fn walk<'a>(a: &Arguments<'a>, site: u64, offsets: [i32; 9], length: u64) -> Arguments<'a> {
    Arguments {
        site: site as usize,
        flux: Flux {
            offsets,
            length,
            ..a.flux
        },
        ..*a
    }
}

impl Source {
    fn steps(&mut self) -> Vec<u8> {
        let straight = (0..8).flat_map(|step| [step; STRAIGHT]);
        let mut steps: Vec<u8> = straight.collect();
        steps.extend((0..ANY).map(|_| self.below(8) as u8));
        steps.extend((0..MIXED).map(|_| match self.below(64) {
            0 => 8 + self.below(248) as u8,
            _ => self.below(8) as u8,
        }));
        steps
    }
}
