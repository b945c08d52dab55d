//! The lines of the overrelaxation, after those of every field. First, for `raw` and then for `units`,
//!
//!     SET update_link HASH
//!
//! over the answers of 400 calls on the pairs of the arithmetic, a as the link and b as the staple:
//! each is its refusal number, then its 18 numbers. Then three lines
//!
//!     bound F64 ROW HASH
//!
//! of `update_link` with the identity as the link and the identity scaled by F64 as the staple: the
//! refusal number and a hash over the 18 numbers. F64 is the one below 1e-12, 1e-12 and the one above.
//!
//! Then a sweep for extents 4 2 2 2 and each of the kinds `group`, `damaged`, `units`. The plan has
//! coupling 5.75, seed 0, pass 0. Each half-sweep is opened with the plan that the last opening handed
//! back, direction by direction, parity 0 and then 1, and goes on with the links as they are then:
//!
//!     sweep KIND HASH                          the links before
//!     frame SIZE VISITED STUCK HASH            direction 0, parity 0: the job's numbers and the links
//!     half_sweep DIRECTION PARITY STUCK HASH   the other seven, finished
//!     pass PASS                                of the plan after the last opening
//!
//! The frames of the first half-sweep have the sizes 3, 0, 9 and 2^64 - 1, which ends it. The others
//! are finished by one frame of size 2^64 - 1.

use super::{PAIRS, SEED, SETS, hash::Hash};
use crate::face::Four;
use crate::flat;
use crate::kinds::{self, KINDS, Kind};
use crate::reference::su3::mat::Su3;
use crate::reference::su3::rng::Rng;
use crate::tally::Words;
use crate::update::{self, Visit};
use std::fmt::{Result, Write};

const EXTENTS: Four = [4, 2, 2, 2];
const SWEPT: [&str; 3] = ["group", "damaged", "units"];
const SIZES: [u64; 4] = [3, 0, 9, u64::MAX];

pub fn lines(to: &mut String) -> Result {
    for (set, (name, matrix)) in SETS.into_iter().enumerate() {
        let answers = (0..PAIRS).flat_map(|i| {
            let mut rng = Rng::stream(SEED, i, set, 0);
            let [u, staple] = [(); 2].map(|()| flat::matrix(&matrix(&mut rng)));
            answer(&u, &staple)
        });
        writeln!(to, "{name} update_link {}", Hash::over(answers))?;
    }
    for bound in [1e-12f64.next_down(), 1e-12, 1e-12f64.next_up()] {
        let words = answer(&Su3::IDENTITY, &Su3::IDENTITY.scale(bound));
        let numbers = Hash::over(words[1..].iter().copied());
        writeln!(to, "bound {:016x} {} {numbers}", bound.to_bits(), words[0])?;
    }
    for name in SWEPT {
        sweep(to, &KINDS[kinds::number_of(name)])?;
    }
    Ok(())
}

fn answer(u: &Su3, staple: &Su3) -> Words {
    update::answered(update::updated(u, staple))
}

fn sweep(to: &mut String, kind: &Kind) -> Result {
    let mut links = kinds::links(kind, EXTENTS, SEED);
    let mut whole = flat::lattice(EXTENTS, &links);
    whole.overrelax_sweep();
    writeln!(to, "sweep {} {}", kind.name, Hash::of_numbers(&links))?;
    frames(to, &mut links)?;
    for [mu, parity] in (1..8).map(|n| [n / 2, n % 2]) {
        let visits = half_sweep(&links, mu, parity);
        update::write(&mut links, &visits);
        let (stuck, hash) = (update::stuck(&visits), Hash::of_numbers(&links));
        writeln!(to, "half_sweep {mu} {parity} {stuck} {hash}")?;
    }
    writeln!(to, "pass {}", whole.pass())
}

fn frames(to: &mut String, links: &mut [f64]) -> Result {
    let visits = half_sweep(links, 0, 0);
    let mut sum = 0u64;
    for size in SIZES {
        sum = sum.saturating_add(size).min(visits.len() as u64);
        let visited = &visits[..sum as usize];
        update::write(links, visited);
        let (stuck, hash) = (update::stuck(visited), Hash::of_numbers(links));
        writeln!(to, "frame {size} {sum} {stuck} {hash}")?;
    }
    Ok(())
}

/// All visits of a half-sweep, from these links.
fn half_sweep(links: &[f64], mu: usize, parity: usize) -> Vec<Visit> {
    let lattice = flat::lattice(EXTENTS, links);
    update::visits(&lattice, mu, lattice.sites_of(parity))
}
