//! Smearing, the clover and the densities, on fields of the group. The first rows are of single calls,
//! with the comparison's reference; the others are of calls on a whole field, and have the time of a
//! site.
//!
//! For a density the reference works out the field strength of every site in all six planes, lists
//! it, and then makes a list of the sums; the electric squares it makes all three at once, where the
//! library is called for each axis. A step of the reference's makes new links, puts them in the place
//! of the old ones and drops these. It is timed on a clone of the lattice that is made before; the
//! library writes to a list that stays.
//!
//! For a density the library goes over a field once where every number is from -2 to 2, and else twice: one
//! row has a field with a 3 in it. A step of the library's always goes twice. For three axes it works
//! out three planes, where the reference works out six.

use super::reference::su3::lattice as whole;
use crate::face::{self, Four};
use crate::flat;
use crate::kinds::{self, KINDS};
use crate::reference::su3::lattice::Su3Lattice;
use crate::reference::su3::mat::Su3;
use crate::stopwatch::Row;
use std::cell::{Cell, RefCell};

const PLANES: [[usize; 2]; 6] = [[0, 1], [0, 2], [0, 3], [1, 2], [1, 3], [2, 3]];
const RHO: f64 = 0.1;

/// The same links for both sides.
struct Field {
    ext: Four,
    sites: usize,
    lent: Vec<Cell<f64>>,
    smeared: Vec<Cell<f64>>,
    density: Vec<Cell<f64>>,
    lattice: Su3Lattice,
    /// For the reference's calls on the whole of it.
    whole: whole::Su3Lattice,
    /// What its next step is made on.
    next: RefCell<whole::Su3Lattice>,
}

/// One side of a row: a pass over all sites.
type Pass = fn(&Field) -> u64;

impl Field {
    fn new(ext: Four) -> Self {
        let group = &KINDS[kinds::number_of("group")];
        Self::of(ext, kinds::links(group, ext, 1))
    }

    /// With one number of 3 in the middle of the list.
    fn with_three(ext: Four) -> Self {
        let group = &KINDS[kinds::number_of("group")];
        let mut links = kinds::links(group, ext, 1);
        let middle = links.len() / 2;
        links[middle] = 3.0;
        Self::of(ext, links)
    }

    fn of(ext: Four, links: Vec<f64>) -> Self {
        let sites = ext.iter().product();
        let whole = super::flat::lattice(ext, &links);
        Self {
            ext,
            sites,
            smeared: vec![Cell::new(0.0); links.len()],
            density: vec![Cell::new(0.0); sites],
            lattice: flat::lattice(ext, &links),
            next: whole.clone().into(),
            whole,
            lent: links.into_iter().map(Cell::new).collect(),
        }
    }

    fn row(&self, call: &'static str, sides: [Pass; 2]) -> Row {
        Row::race(call, self.sites, sides, |pass| pass(self))
    }

    fn step(&self, call: &'static str) -> Row {
        let sides: [Pass; 2] = [step, rust_step];
        let fresh = || *self.next.borrow_mut() = self.whole.clone();
        Row::race_after(call, self.sites, sides, fresh, |pass| pass(self))
    }
}

pub fn rows() -> Vec<Row> {
    let [middle, large] = [8, 16].map(|side| Field::new([side; 4]));
    let three = Field::with_three([8; 4]);
    vec![
        middle.row("stout_link, 8^4", [stout_links, rust_stout_links]),
        middle.row("clover_leaves, 8^4", [clovers, rust_clovers]),
        middle.row("field_strength_at, 8^4", [strengths, rust_strengths]),
        middle.step("stout_step, 8^4, a site"),
        large.step("stout_step, 16^4, a site"),
        middle.row("action_density, 8^4, a site", [action, rust_action]),
        large.row("action_density, 16^4, a site", [action, rust_action]),
        three.row(
            "action_density, 8^4 with a 3, a site",
            [action, rust_action],
        ),
        middle.row(
            "topological_charge_density, 8^4, a site",
            [charge, rust_charge],
        ),
        large.row(
            "topological_charge_density, 16^4, a site",
            [charge, rust_charge],
        ),
        middle.row(
            "electric_sq, 8^4, three axes, a site",
            [electric, rust_electric],
        ),
        large.row(
            "electric_sq, 16^4, three axes, a site",
            [electric, rust_electric],
        ),
    ]
}

fn stout_links(field: &Field) -> u64 {
    (0..field.sites).fold(0, |sum, site| {
        let (_, out) = face::stout_link(&field.ext, site, site % 4, RHO, &field.lent);
        sum ^ out[0].to_bits()
    })
}

fn rust_stout_links(field: &Field) -> u64 {
    (0..field.sites).fold(0, |sum, site| {
        let out = rust_stout_link(&field.lattice, site, site % 4);
        sum ^ out.m[0][0].re.to_bits()
    })
}

#[inline(never)]
fn rust_stout_link(lattice: &Su3Lattice, site: usize, mu: usize) -> Su3 {
    lattice.stout_link(site, mu, RHO)
}

fn clovers(field: &Field) -> u64 {
    (0..field.sites).fold(0, |sum, site| {
        let (_, out) = face::clover_leaves(&field.ext, site, PLANES[site % 6], &field.lent);
        sum ^ out[0].to_bits()
    })
}

fn rust_clovers(field: &Field) -> u64 {
    (0..field.sites).fold(0, |sum, site| {
        let out = rust_clover(&field.lattice, site, PLANES[site % 6]);
        sum ^ out.m[0][0].re.to_bits()
    })
}

#[inline(never)]
fn rust_clover(lattice: &Su3Lattice, site: usize, [mu, nu]: [usize; 2]) -> Su3 {
    lattice.clover_leaves(site, mu, nu)
}

fn strengths(field: &Field) -> u64 {
    (0..field.sites).fold(0, |sum, site| {
        let (_, out) = face::field_strength_at(&field.ext, site, &field.lent);
        sum ^ out[1].to_bits()
    })
}

fn rust_strengths(field: &Field) -> u64 {
    (0..field.sites).fold(0, |sum, site| {
        let out = rust_strength(&field.lattice, site);
        sum ^ out[0].m[0][0].im.to_bits()
    })
}

#[inline(never)]
fn rust_strength(lattice: &Su3Lattice, site: usize) -> [Su3; 6] {
    lattice.field_strength_at(site)
}

fn step(field: &Field) -> u64 {
    let refusal = face::stout_step(&field.ext, RHO, &field.lent, &field.smeared);
    field.smeared[0].get().to_bits() ^ u64::from(refusal)
}

fn rust_step(field: &Field) -> u64 {
    let lattice = &mut *field.next.borrow_mut();
    lattice.stout_step(RHO);
    lattice.links[0][0].m[0][0].re.to_bits()
}

fn action(field: &Field) -> u64 {
    let refusal = face::action_density(&field.ext, &field.lent, &field.density);
    field.density[0].get().to_bits() ^ u64::from(refusal)
}

fn rust_action(field: &Field) -> u64 {
    field.whole.field_strength().action_density()[0].to_bits()
}

fn charge(field: &Field) -> u64 {
    let refusal = face::topological_charge_density(&field.ext, &field.lent, &field.density);
    field.density[0].get().to_bits() ^ u64::from(refusal)
}

fn rust_charge(field: &Field) -> u64 {
    field.whole.field_strength().topological_charge_density()[0].to_bits()
}

fn electric(field: &Field) -> u64 {
    (0..3).fold(0, |sum, axis| {
        let refusal = face::electric_sq(&field.ext, axis, &field.lent, &field.density);
        sum ^ field.density[0].get().to_bits() ^ u64::from(refusal)
    })
}

fn rust_electric(field: &Field) -> u64 {
    let squares = field.whole.field_strength().electric_sq();
    squares.iter().fold(0, |sum, axis| sum ^ axis[0].to_bits())
}
