//! The calls that read or write links against the reference, on fields of every kind.

use crate::calls::{ACTION, AVERAGE_PLAQUETTE, COLD, LINK_CHECK, PLAQUETTE, POLYAKOV_LOOP, STAPLE};
use crate::face::Four;
use crate::ground::{Ground, Lists, Padded};
use crate::inputs::Source;
use crate::kinds::{self, KINDS, Kind};
use crate::rows::Arguments;
use crate::tally::Tally;

/// Every kind on each of these, with so many seeds, at every site.
pub const SMALL: [Four; 10] = [
    [2, 2, 2, 2],
    [4, 2, 2, 2],
    [2, 4, 2, 2],
    [2, 2, 4, 2],
    [2, 2, 2, 4],
    [2, 6, 4, 2],
    [6, 2, 2, 4],
    [2, 2, 10, 2],
    [2, 2, 2, 16],
    [16, 2, 2, 2],
];
const SEEDS: u64 = 5;

/// Every kind once on each of these, at every site of the first and at some of the others.
const MIDDLE: [Four; 3] = [[4, 4, 4, 4], [2, 10, 2, 14], [12, 4, 6, 2]];
/// These kinds on the large ones, at some sites.
const LARGE: [Four; 2] = [[8, 8, 8, 8], [16, 4, 2, 16]];
const ON_LARGE: [&str; 5] = ["group", "units", "damaged", "rarely hard", "last unsound"];
/// How many links these are.
const SOME: usize = 400;

const COUPLINGS: [f64; 8] = [
    6.0,
    0.0,
    -0.0,
    5.75,
    100.0,
    0.1,
    f64::MIN_POSITIVE,
    f64::from_bits(1),
];

pub fn compare(tally: &mut Tally) {
    let mut source = Source::new(6);
    for (number, kind) in KINDS.iter().enumerate() {
        let mut on = |ext: Four, seed: u64| {
            let label = [number as u64, seed];
            field(tally, &mut source, kind, label, ext);
        };
        let seeds = if kind.draws { SEEDS } else { 1 };
        for ext in SMALL {
            (0..seeds).for_each(|seed| on(ext, seed));
        }
        MIDDLE.into_iter().for_each(|ext| on(ext, SEEDS));
        if ON_LARGE.contains(&kind.name) {
            LARGE.into_iter().for_each(|ext| on(ext, SEEDS));
        }
    }
}

fn field(tally: &mut Tally, source: &mut Source, kind: &Kind, label: [u64; 2], ext: Four) {
    let links = kinds::links(kind, ext, label[1]);
    let lists = Lists::new(links.clone(), vec![]);
    let padded = lists.padded();
    let a = padded.arguments(ext, links.len(), 0);
    let mut ground = Ground::new(label, ext, lists);
    for link in places(source, a.sites()) {
        around(tally, &mut ground, &a, &padded, link);
    }
    whole(tally, source, &mut ground, &a, &padded);
    checks(tally, source, label, ext, &links);
}

/// Directions and sites: all of them, or some where there are many.
fn places(source: &mut Source, sites: usize) -> Vec<[usize; 2]> {
    if sites <= 256 {
        (0..4 * sites).map(|n| [n / sites, n % sites]).collect()
    } else {
        let ends = [[0, 0], [3, sites - 1]];
        let some = (2..SOME).map(|_| [4, sites as u64].map(|n| source.below(n) as usize));
        ends.into_iter().chain(some).collect()
    }
}

/// The staple of a link, and its planes with every direction, its own too.
fn around(
    tally: &mut Tally,
    ground: &mut Ground,
    a: &Arguments,
    padded: &Padded,
    link: [usize; 2],
) {
    let [mu, site] = link;
    let coupling = COUPLINGS[site % COUPLINGS.len()];
    let a = Arguments {
        site,
        mu,
        coupling,
        ..*a
    };
    ground.check(tally, &STAPLE, &a, padded);
    for nu in 0..4 {
        ground.check(tally, &PLAQUETTE, &Arguments { nu, ..a }, padded);
    }
}

/// The calls that go over the whole field.
fn whole(
    tally: &mut Tally,
    source: &mut Source,
    ground: &mut Ground,
    a: &Arguments,
    padded: &Padded,
) {
    ground.check(tally, &AVERAGE_PLAQUETTE, a, padded);
    ground.check(tally, &POLYAKOV_LOOP, a, padded);
    // Some with many digits: the order of the factors shows only with such.
    let drawn = [(); 4].map(|()| 50.0 + 50.0 * source.ordinary());
    for coupling in COUPLINGS.into_iter().chain(drawn) {
        ground.check(tally, &ACTION, &Arguments { coupling, ..*a }, padded);
    }
    let fresh = Arguments {
        coupling: drawn[0],
        seed: source.word(),
        ..*a
    };
    ground.check(tally, &COLD, &fresh, padded);
}

/// The link check with several rooms: enough, more, too little; and contents before it.
fn checks(tally: &mut Tally, source: &mut Source, label: [u64; 2], ext: Four, links: &[f64]) {
    let enough = links.len() / 18;
    let most = enough + 7;
    let any = (0..most).map(|_| source.word() as u32).collect();
    for found in [vec![0; most], vec![u32::MAX; most], any] {
        let lists = Lists::new(links.to_vec(), found);
        let padded = lists.padded();
        let mut ground = Ground::new(label, ext, lists);
        for room in [enough, enough + 1, most, enough - 1, 0] {
            let a = padded.arguments(ext, links.len(), room);
            ground.check(tally, &LINK_CHECK, &a, &padded);
        }
    }
}
