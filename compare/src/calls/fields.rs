//! Smearing, the field strength and the densities.

use super::{Call, checked, numbers, stored};
use crate::face;
use crate::flat;
use crate::reference::su3::fields::FieldStrength;
use crate::reference::su3::lattice::Su3Lattice;
use crate::rows::Arguments;
use crate::rows::Part::{Axis, Density, Direction, Extents, Links, Other, Rho, Site, Smeared};
use crate::tally::answer;

pub const STOUT_LINK: Call = Call {
    name: "jj_stout_link",
    takes: &[Extents, Links, Site, Direction, Rho],
    width: 18,
    rattle: |a| numbers(face::stout_link(&a.ext, a.site, a.mu, a.rho, a.links)),
    rust: |a, lattice| checked(&flat::numbers(&lattice.stout_link(a.site, a.mu, a.rho))),
    keeps: None,
    writes: None,
};

pub const STOUT_STEP: Call = Call {
    name: "jj_stout_step",
    takes: &[Extents, Links, Smeared, Rho],
    width: 0,
    rattle: |a| answer(face::stout_step(&a.ext, a.rho, a.links, a.second), []),
    rust: |a, lattice| stored(&smeared(lattice, a.rho)),
    keeps: None,
    writes: Some(|a, lattice, lists| lists.fill(&smeared(lattice, a.rho))),
};

pub const CLOVER_LEAVES: Call = Call {
    name: "jj_clover_leaves",
    takes: &[Extents, Links, Site, Direction, Other],
    width: 18,
    rattle: |a| numbers(face::clover_leaves(&a.ext, a.site, [a.mu, a.nu], a.links)),
    rust: |a, lattice| checked(&flat::numbers(&lattice.clover_leaves(a.site, a.mu, a.nu))),
    keeps: None,
    writes: None,
};

pub const FIELD_STRENGTH_AT: Call = Call {
    name: "jj_field_strength_at",
    takes: &[Extents, Links, Site],
    width: 108,
    rattle: |a| numbers(face::field_strength_at(&a.ext, a.site, a.links)),
    rust: |a, lattice| checked(&strength_at(lattice, a.site)),
    keeps: None,
    writes: None,
};

pub const ACTION_DENSITY: Call = Call {
    name: "jj_action_density",
    takes: &[Extents, Links, Density],
    width: 0,
    rattle: |a| answer(face::action_density(&a.ext, a.links, a.second), []),
    rust: |_, lattice| stored(&action_density(&lattice.field_strength())),
    keeps: None,
    writes: Some(|_, lattice, lists| lists.fill(&action_density(&lattice.field_strength()))),
};

pub const TOPOLOGICAL_CHARGE_DENSITY: Call = Call {
    name: "jj_topological_charge_density",
    takes: &[Extents, Links, Density],
    width: 0,
    rattle: |a| {
        let refusal = face::topological_charge_density(&a.ext, a.links, a.second);
        answer(refusal, [])
    },
    rust: |_, lattice| stored(&charge_density(lattice)),
    keeps: None,
    writes: Some(|_, lattice, lists| lists.fill(&charge_density(lattice))),
};

pub const ELECTRIC_SQ: Call = Call {
    name: "jj_electric_sq",
    takes: &[Extents, Links, Density, Axis],
    width: 0,
    rattle: |a| answer(face::electric_sq(&a.ext, a.axis, a.links, a.second), []),
    rust: |a, lattice| stored(&electric_sq(a, lattice)),
    keeps: None,
    writes: Some(|a, lattice, lists| lists.fill(&electric_sq(a, lattice))),
};

/// The links after a step, direction first, then site.
pub fn smeared(lattice: &Su3Lattice, rho: f64) -> Vec<f64> {
    let mut lattice = lattice.clone();
    lattice.stout_step(rho);
    flat::links(&lattice)
}

/// The reference's, but that each site's sum begins at +0, as the document says. In some versions of
/// Rust's library it begins at -0, and so is -0 where all six terms are.
pub fn action_density(strength: &FieldStrength) -> Vec<f64> {
    plane_densities(strength).map(|terms| sum(&terms)).collect()
}

/// The terms of the action density at each site: three of planes with time, three of space.
pub fn plane_densities(strength: &FieldStrength) -> impl Iterator<Item = [f64; 6]> + '_ {
    strength
        .f
        .iter()
        .map(|planes| planes.map(|f| -(f * f).re_tr()))
}

/// From +0.
pub fn sum(terms: &[f64]) -> f64 {
    terms.iter().fold(0.0, |sum, term| sum + term)
}

fn charge_density(lattice: &Su3Lattice) -> Vec<f64> {
    lattice.field_strength().topological_charge_density()
}

fn electric_sq(a: &Arguments, lattice: &Su3Lattice) -> Vec<f64> {
    let [x, y, z] = lattice.field_strength().electric_sq();
    [x, y, z]
        .into_iter()
        .nth(a.axis)
        .expect("row 5 has checked it")
}

fn strength_at(lattice: &Su3Lattice, site: usize) -> face::Planes {
    let planes = lattice.field_strength_at(site).map(|f| flat::numbers(&f));
    std::array::from_fn(|k| planes[k / 18][k % 18])
}
