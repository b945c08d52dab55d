//! Calls on a field of the group. A call on the whole field counts as one for each site, so that the
//! table has the time of a site.

use super::reference::su3::lattice as whole;
use crate::face::{self, Four};
use crate::flat;
use crate::kinds::{self, KINDS};
use crate::reference::su3::lattice::Su3Lattice;
use crate::reference::su3::mat::Su3;
use crate::stopwatch::Row;
use std::cell::Cell;
use std::hint::black_box;

const PLANES: [[usize; 2]; 6] = [[0, 1], [0, 2], [0, 3], [1, 2], [1, 3], [2, 3]];

/// The same links for both sides, and for plain Rust.
struct Field {
    ext: Four,
    sites: usize,
    lent: Vec<Cell<f64>>,
    /// Another list as long, to be written.
    room: Vec<Cell<f64>>,
    found: Vec<Cell<u32>>,
    lattice: Su3Lattice,
    /// For the reference's calls on the whole of it.
    whole: whole::Su3Lattice,
    plain: Vec<f64>,
}

/// One side of a row: a pass over all sites.
type Pass = fn(&Field) -> u64;

impl Field {
    fn new(ext: Four) -> Self {
        let group = &KINDS[kinds::number_of("group")];
        let plain = kinds::links(group, ext, 1);
        Self {
            ext,
            sites: ext.iter().product(),
            lent: plain.iter().copied().map(Cell::new).collect(),
            room: vec![Cell::new(0.0); plain.len()],
            found: vec![Cell::new(0); plain.len() / 18],
            lattice: flat::lattice(ext, &plain),
            whole: super::flat::lattice(ext, &plain),
            plain,
        }
    }

    fn row(&self, call: &'static str, sides: [Pass; 2]) -> Row {
        Row::race(call, self.sites, sides, |pass| pass(self))
    }
}

pub fn rows() -> Vec<Row> {
    let [small, large] = [4, 8].map(|side| Field::new([side; 4]));
    vec![
        large.row("plaquette, 8^4", [plaquettes, rust_plaquettes]),
        large.row("staple, 8^4", [staples, rust_staples]),
        large.row("average_plaquette, 8^4, a site", [average, rust_average]),
        small.row("average_plaquette, 4^4, a site", [average, rust_average]),
        large.row("polyakov_loop, 8^4, a site", [polyakov, rust_polyakov]),
        small.row("polyakov_loop, 4^4, a site", [polyakov, rust_polyakov]),
        large.row(
            "link_check, 8^4, a site (plain Rust)",
            [link_check, rust_link_check],
        ),
        small.row(
            "link_check, 4^4, a site (plain Rust)",
            [link_check, rust_link_check],
        ),
        large.row("cold, 8^4, a site (Rust: and tables)", [cold, rust_cold]),
        small.row("cold, 4^4, a site (Rust: and tables)", [cold, rust_cold]),
    ]
}

fn plaquettes(field: &Field) -> u64 {
    (0..field.sites).fold(0, |sum, site| {
        let (_, out) = face::plaquette(&field.ext, site, PLANES[site % 6], &field.lent);
        sum ^ out[0].to_bits()
    })
}

fn rust_plaquettes(field: &Field) -> u64 {
    (0..field.sites).fold(0, |sum, site| {
        let out = rust_plaquette(&field.lattice, site, PLANES[site % 6]);
        sum ^ out.m[0][0].re.to_bits()
    })
}

#[inline(never)]
fn rust_plaquette(lattice: &Su3Lattice, site: usize, [mu, nu]: [usize; 2]) -> Su3 {
    lattice.plaquette(site, mu, nu)
}

fn staples(field: &Field) -> u64 {
    (0..field.sites).fold(0, |sum, site| {
        let (_, out) = face::staple(&field.ext, 6.0, [site, site % 4], &field.lent);
        sum ^ out[0].to_bits()
    })
}

fn rust_staples(field: &Field) -> u64 {
    (0..field.sites).fold(0, |sum, site| {
        let out = rust_staple(&field.lattice, site, site % 4);
        sum ^ out.m[0][0].re.to_bits()
    })
}

#[inline(never)]
fn rust_staple(lattice: &Su3Lattice, site: usize, mu: usize) -> Su3 {
    lattice.staple(site, mu)
}

fn average(field: &Field) -> u64 {
    face::average_plaquette(&field.ext, &field.lent).1[0].to_bits()
}

fn rust_average(field: &Field) -> u64 {
    field.whole.average_plaquette().to_bits()
}

fn polyakov(field: &Field) -> u64 {
    face::polyakov_loop(&field.ext, &field.lent).1[0].to_bits()
}

fn rust_polyakov(field: &Field) -> u64 {
    field.whole.polyakov_loop().re.to_bits()
}

fn link_check(field: &Field) -> u64 {
    face::link_check(&field.ext, &field.lent, &field.found).1[0].into()
}

/// The reference has no such function.
fn rust_link_check(field: &Field) -> u64 {
    let (links, _) = field.plain.as_chunks::<18>();
    let mut count = 0;
    for (number, link) in links.iter().enumerate() {
        if !link.iter().all(|x| x.abs() <= 1.0) {
            field.found[count].set(number as u32);
            count += 1;
        }
    }
    count as u64
}

fn cold(field: &Field) -> u64 {
    face::cold(&field.ext, 6.0, 1, &field.room).into()
}

/// With its lists from the heap and its tables of neighbours.
fn rust_cold(field: &Field) -> u64 {
    black_box(whole::Su3Lattice::cold(field.ext, 6.0, 1)).n_sites() as u64
}
