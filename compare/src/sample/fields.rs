//! The lines of smearing, clover and densities, after those. For extents 2 6 4 2 and each kind,
//! in the order above, with the field that is made above:
//!
//!     fields KIND
//!     clover_leaves HASH                       site by site, mu 0 to 3, nu 0 to 3, mu itself too
//!     field_strengths HASH                     site by site
//!     stout_links HASH                         site by site, direction by direction; rho 0.1
//!     action_density ROW HASH
//!     topological_charge_density ROW HASH
//!     electric_sq ROW HASH ROW HASH ROW HASH   axis 0, 1, 2
//!     stout_step F64 ROW HASH                  F64 is rho: 0.1
//!
//! and after the kind `group` eight more lines `stout_step`, with -0.3, 0, -0, 1e20, 1e200, the
//! infinities and NaN.
//!
//! In the first three each call adds its numbers to the hash, 18 or 108, and where it is refused its
//! refusal number alone. In the others ROW is the refusal number and the hash is over the list that
//! the call fills, as it is after the call: 96 numbers, or 6912 for a step. Before each call every
//! number of it is 7, and so they are hashed where it is refused. Sums of `action_density` begin at +0.

use super::{SEED, hash::Hash, over};
use crate::calls::{self, CLOVER_LEAVES, FIELD_STRENGTH_AT, STOUT_LINK};
use crate::face::Four;
use crate::flat;
use crate::ground::Lists;
use crate::kinds::{self, Kind};
use crate::reference::su3::lattice::Su3Lattice;
use crate::rows::{self, Arguments};
use std::fmt::{Result, Write};

const EXTENTS: Four = [2, 6, 4, 2];
const RHO: f64 = 0.1;
const MORE: (&str, [f64; 8]) = (
    "group",
    [
        -0.3,
        0.0,
        -0.0,
        1e20,
        1e200,
        f64::INFINITY,
        f64::NEG_INFINITY,
        f64::NAN,
    ],
);

pub fn lines(to: &mut String) -> Result {
    kinds::sampled().iter().try_for_each(|kind| field(to, kind))
}

fn field(to: &mut String, kind: &Kind) -> Result {
    let links = kinds::links(kind, EXTENTS, SEED);
    let lattice = &mut flat::lattice(EXTENTS, &links);
    let padded = Lists::new(links.clone(), vec![]).padded();
    let a = Arguments {
        rho: RHO,
        ..padded.arguments(EXTENTS, links.len(), 0)
    };
    writeln!(to, "fields {}", kind.name)?;
    single(to, a, lattice)?;
    densities(to, lattice)?;
    let (name, more) = MORE;
    let more = more.into_iter().filter(|_| kind.name == name);
    for rho in [RHO].into_iter().chain(more) {
        let step = list(calls::smeared(lattice, rho));
        writeln!(to, "stout_step {:016x} {step}", rho.to_bits())?;
    }
    Ok(())
}

/// The calls that answer matrices.
fn single(to: &mut String, a: Arguments, lattice: &mut Su3Lattice) -> Result {
    let sites = || (0..a.sites()).map(|site| Arguments { site, ..a });
    let directions = || sites().flat_map(|a| (0..4).map(move |mu| Arguments { mu, ..a }));
    let planes = directions().flat_map(|a| (0..4).map(move |nu| Arguments { nu, ..a }));
    let leaves = over(&[CLOVER_LEAVES], planes, lattice);
    let strengths = over(&[FIELD_STRENGTH_AT], sites(), lattice);
    let links = over(&[STOUT_LINK], directions(), lattice);
    writeln!(to, "clover_leaves {leaves}")?;
    writeln!(to, "field_strengths {strengths}")?;
    writeln!(to, "stout_links {links}")
}

fn densities(to: &mut String, lattice: &Su3Lattice) -> Result {
    let strength = lattice.field_strength();
    let action = list(calls::action_density(&strength));
    let charge = list(strength.topological_charge_density());
    let [x, y, z] = strength.electric_sq().map(list);
    writeln!(to, "action_density {action}")?;
    writeln!(to, "topological_charge_density {charge}")?;
    writeln!(to, "electric_sq {x} {y} {z}")
}

/// Of a call that fills a list with these numbers.
fn list(numbers: Vec<f64>) -> String {
    if rows::not_finite(&numbers) {
        format!("10 {}", Hash::of_numbers(&vec![7.0; numbers.len()]))
    } else {
        format!("0 {}", Hash::of_numbers(&numbers))
    }
}
