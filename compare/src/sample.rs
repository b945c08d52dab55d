//! Lines of the reference's answers, which a program without Rust can print too and be held to.
//!
//! A line is a name and what follows it. A hash is FNV-1a, 64 bits, over words, the eight bytes of
//! each from the lowest; the word of an f64 is its pattern, of a NaN 7ff8000000000000. Hashes and
//! f64 are 16 hex digits, counts and refusals decimal. S is 20261115.
//!
//! Complex numbers come first: their file has their lines.
//!
//! Matrices, first with the set `raw`, then with `units`: 21 lines
//!
//!     SET CALL HASH
//!
//! over the answers of 400 calls, CALL without `jj_` and `su3_`. Number i draws from the stream of
//! seed S, pass i, direction 0 for `raw` and 1 for `units`, site 0: 18 numbers, which are the matrix
//! a, and 18 more, b. In `raw` a number is 2u - 1 for a uniform u; in `units` the top two bits of a
//! draw choose from +0, -0, 1, -1. `scale` takes b's first number; blocks and quaternions are the
//! first eight and four numbers of a and b; the subgroup is i mod 4. So `left_mul_sub` has matrix a
//! and block b. The answer of a call that can refuse is its refusal number, then its numbers.
//!
//! The field, for extents 2 2 2 2, then 4 2 2 2, then 2 6 4 2:
//!
//!     extents T X Y Z
//!     sites COUNT
//!     coords HASH          site by site: four coordinates
//!     parities HASH        site by site
//!     neighbours HASH      site by site, direction by direction: forward, backward
//!
//! and then for each kind, in this order: `cold`, `raw`, `group`, `smooth`, `damaged`, `huge`,
//! `units`
//!
//!     field KIND HASH                  the links
//!     average_plaquette ROW F64        ROW is the refusal number, and what follows +0 if refused
//!     action ROW F64                   coupling 5.75
//!     polyakov_loop ROW F64 F64
//!     plaquettes HASH                  site by site, planes 01 02 03 12 13 23
//!     staples HASH                     site by site, direction by direction; coupling 5.75
//!     link_check COUNT HASH            the entries, ascending
//!
//! Each plaquette and staple adds its 18 numbers to its hash, and where it is refused its refusal
//! number alone.
//!
//! A link of direction mu at a site is made by itself, from the stream of seed S, pass 0 (2 for
//! `units`), mu and the site. `raw` and `units` are as above. `group` is `raw` reunitarized; `smooth`
//! is the identity + `raw` scaled by 0.1, reunitarized; `huge` is `raw` with each number times
//! 1.25 * 2^127. `damaged` is `group`; then the stream goes on by one draw, and if the top four bits
//! of it are 0, by one more, d. With p = (d / 2^8) mod 18, the top three bits of d say: 0, all 18
//! numbers are +0; 1, number p is NaN; 2, +infinity; 3, 1e200; 4, 2^-1074; 5, all are multiplied by
//! 1e-13; 6, number p is -0; 7, all are multiplied by 1e160.
//!
//! The overrelaxation comes after these, then smearing, clover and densities, and last staircases,
//! paths, loops and accumulators: their files have their lines.

mod baryon;
mod complex;
mod fields;
mod hash;
mod sweep;

use crate::calls::{
    ACTION, AVERAGE_PLAQUETTE, BWD, COORDS, Call, FWD, PARITY, PLAQUETTE, POLYAKOV_LOOP, STAPLE,
    unsound,
};
use crate::face::{Four, Mat};
use crate::flat;
use crate::ground::Lists;
use crate::kinds::{self, Kind};
use crate::mat::{self, Pair};
use crate::reference::su3::lattice::Su3Lattice;
use crate::reference::su3::rng::Rng;
use crate::rows::Arguments;
use hash::Hash;
use std::fmt::Write;

type Make = fn(&mut Rng) -> Mat;

const SEED: u64 = 20_261_115;
const PAIRS: u64 = 400;
const SETS: [(&str, Make); 2] = [("raw", kinds::raw), ("units", kinds::units)];
const EXTENTS: [Four; 3] = [[2, 2, 2, 2], [4, 2, 2, 2], [2, 6, 4, 2]];
const COUPLING: f64 = 5.75;
const PLANES: [[usize; 2]; 6] = [[0, 1], [0, 2], [0, 3], [1, 2], [1, 3], [2, 3]];

pub fn lines() -> String {
    let mut lines = String::new();
    all(&mut lines).expect("a string takes any text");
    lines
}

fn all(to: &mut String) -> std::fmt::Result {
    complex::lines(to)?;
    arithmetic(to)?;
    for ext in EXTENTS {
        geometry(to, ext)?;
        for kind in kinds::sampled() {
            field(to, kind, ext)?;
        }
    }
    sweep::lines(to)?;
    fields::lines(to)?;
    baryon::lines(to)
}

fn arithmetic(to: &mut String) -> std::fmt::Result {
    for (set, (name, matrix)) in SETS.into_iter().enumerate() {
        for call in &mat::CALLS {
            let short = call.name.trim_start_matches("jj_");
            let short = short.trim_start_matches("su3_");
            let answers = (0..PAIRS).flat_map(|i| {
                let mut rng = Rng::stream(SEED, i, set, 0);
                let matrices = [(); 2].map(|()| matrix(&mut rng));
                (call.rust)(&Pair::new(matrices, i as usize % 4))
            });
            writeln!(to, "{name} {short} {}", Hash::over(answers))?;
        }
    }
    Ok(())
}

fn geometry(to: &mut String, ext: Four) -> std::fmt::Result {
    let padded = Lists::new(vec![], vec![]).padded();
    let lattice = &mut Su3Lattice::cold(ext, COUPLING, 0);
    let a = padded.arguments(ext, 0, 0);
    let sites = || (0..a.sites()).map(|site| Arguments { site, ..a });
    let directions = || sites().flat_map(|a| (0..4).map(move |mu| Arguments { mu, ..a }));
    let [t, x, y, z] = ext;
    writeln!(to, "extents {t} {x} {y} {z}")?;
    writeln!(to, "sites {}", a.sites())?;
    writeln!(to, "coords {}", over(&[COORDS], sites(), lattice))?;
    writeln!(to, "parities {}", over(&[PARITY], sites(), lattice))?;
    writeln!(
        to,
        "neighbours {}",
        over(&[FWD, BWD], directions(), lattice)
    )
}

fn field(to: &mut String, kind: &Kind, ext: Four) -> std::fmt::Result {
    let links = kinds::links(kind, ext, SEED);
    let lattice = &mut flat::lattice(ext, &links);
    let padded = Lists::new(links.clone(), vec![]).padded();
    let a = Arguments {
        coupling: COUPLING,
        ..padded.arguments(ext, links.len(), 0)
    };
    let sites = || (0..a.sites()).map(|site| Arguments { site, ..a });
    let planes = sites().flat_map(|a| PLANES.map(|[mu, nu]| Arguments { mu, nu, ..a }));
    let directions = sites().flat_map(|a| (0..4).map(move |mu| Arguments { mu, ..a }));
    writeln!(to, "field {} {}", kind.name, Hash::of_numbers(&links))?;
    for call in [AVERAGE_PLAQUETTE, ACTION, POLYAKOV_LOOP] {
        let name = call.name.trim_start_matches("jj_");
        writeln!(to, "{name}{}", answer(&call, &a, lattice))?;
    }
    writeln!(to, "plaquettes {}", over(&[PLAQUETTE], planes, lattice))?;
    writeln!(to, "staples {}", over(&[STAPLE], directions, lattice))?;
    let unsound = unsound(lattice);
    let entries = unsound.iter().map(|&n| n.into());
    writeln!(to, "link_check {} {}", unsound.len(), Hash::over(entries))
}

/// The refusal number and the numbers of one call.
fn answer(call: &Call, a: &Arguments, lattice: &mut Su3Lattice) -> String {
    let words = call.expected(a, lattice);
    let numbers = words[1..].iter().map(|w| format!(" {w:016x}"));
    format!(" {}{}", words[0], numbers.collect::<String>())
}

/// A hash over the answers of all these calls: their numbers, or the refusal's.
fn over<'a>(
    calls: &[Call],
    all: impl Iterator<Item = Arguments<'a>>,
    lattice: &mut Su3Lattice,
) -> Hash {
    let mut hash = Hash::default();
    for a in all {
        for call in calls {
            let words = call.expected(&a, lattice);
            let accepted = words[0] == 0;
            hash.add(if accepted { &words[1..] } else { &words[..1] });
        }
    }
    hash
}
