//! Sites, coordinates, parities and neighbours against the reference's, at every site.

use crate::calls::{BWD, COORDS, FWD, INDEX, N_SITES, PARITY};
use crate::face::{self, Four};
use crate::ground::{Ground, Lists};
use crate::rows::{self, Arguments};
use crate::tally::{Tally, answer};

/// Beside all of 2, 4 and 6.
const MORE: [Four; 7] = [
    [8, 8, 8, 8],
    [2, 2, 2, 16],
    [16, 2, 2, 2],
    [2, 10, 14, 12],
    [12, 2, 16, 4],
    [14, 16, 2, 10],
    [16, 16, 16, 16],
];

/// For the extents of the whole range and the ones beside it, and some far out.
const SIDES: [usize; 23] = [
    0,
    1,
    2,
    3,
    4,
    5,
    6,
    7,
    8,
    9,
    10,
    11,
    12,
    13,
    14,
    15,
    16,
    17,
    18,
    20,
    1 << 16,
    1 << 62,
    usize::MAX,
];

pub fn compare(tally: &mut Tally) {
    for ext in crossed(&SIDES) {
        n_sites(tally, ext);
    }
    for ext in crossed(&[2, 4, 6]).chain(MORE) {
        everywhere(tally, ext);
    }
}

/// All extents made of these, t fastest.
pub fn crossed(sides: &[usize]) -> impl Iterator<Item = Four> {
    let n = sides.len();
    (0..n.pow(4)).map(move |i| [i, i / n, i / n.pow(2), i / n.pow(3)].map(|j| sides[j % n]))
}

/// Against the product of the extents, with no lattice made for it.
fn n_sites(tally: &mut Tally, ext: Four) {
    let (refusal, [sites]) = face::n_sites(&ext);
    let padded = Lists::new(vec![], vec![]).padded();
    let a = padded.arguments(ext, 0, 0);
    let rust = match rows::refusal(N_SITES.takes, &a) {
        0 => answer(0, [a.sites() as u64]),
        row => answer(row, [0]),
    };
    let inputs = ext.map(|n| n as u64);
    tally.check(
        N_SITES.name,
        &inputs,
        &answer(refusal, [sites as u64]),
        &rust,
    );
}

fn everywhere(tally: &mut Tally, ext: Four) {
    let lists = Lists::new(vec![], vec![]);
    let padded = lists.padded();
    let mut ground = Ground::bare(ext, lists);
    let plain = padded.arguments(ext, 0, 0);
    ground.check(tally, &N_SITES, &plain, &padded);
    for site in 0..plain.sites() {
        let at = ground.lattice.coords(site);
        for call in [&COORDS, &INDEX, &PARITY] {
            ground.check(tally, call, &Arguments { site, at, ..plain }, &padded);
        }
        for mu in 0..4 {
            for call in [&FWD, &BWD] {
                ground.check(tally, call, &Arguments { site, mu, ..plain }, &padded);
            }
        }
    }
}
