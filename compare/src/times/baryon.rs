//! Staircases, paths, loops and additions, on a field of the group, with a quark on each axis and a
//! time length of 2; loops also with quarks nine steps away.
//!
//! The library's `baryon_loop` is handed offsets and works out their staircases in each call, where the
//! reference is handed paths. So it has two rows: in one the reference makes its three staircases in
//! each call too, on the heap, in the other it has them from before. An accumulator of the reference's
//! keeps its staircases; the library's works them out once in each addition.

use super::flat as whole_flat;
use super::reference::su3::baryon as whole;
use super::reference::su3::lattice::Su3Lattice as Whole;
use crate::face::{self, Accumulator, Four, Offset, Offsets};
use crate::flat;
use crate::kinds::{self, KINDS};
use crate::reference::su3::baryon::staircase;
use crate::reference::su3::lattice::Su3Lattice;
use crate::reference::su3::mat::Su3;
use crate::stopwatch::Row;
use std::cell::{Cell, RefCell};
use std::hint::black_box;

const EXT: Four = [8; 4];
const SITES: usize = 4096;
const CELLS: usize = 512;

/// The three quarks' offsets.
type Quarks = [Offset; 3];

const QUARKS: Quarks = [[1, 0, 0], [0, 1, 0], [0, 0, 1]];
const NINE_STEPS: Quarks = [[4, -3, 2], [-2, 4, 3], [3, 2, -4]];
const LENGTH: usize = 2;

/// Of the longest staircases, and how many of them one pass has.
const FAR: Offset = [32, 31, 30];
const STAIRCASES: usize = 64;
/// Links of a line, and steps of a path: those of a staircase.
const LINE: usize = 8;
const PATH: Offset = [9, -8, 7];

/// As the reference has it.
type Steps = Vec<(usize, bool)>;

/// The same links for both sides.
struct Field {
    lent: Vec<Cell<f64>>,
    lattice: Su3Lattice,
    steps: Steps,
    bytes: Vec<Cell<u8>>,
    quarks: Quarks,
    offsets: Offsets,
    paths: [Steps; 3],
}

/// One side of a row: a pass over all sites.
type Pass = fn(&Field) -> u64;

pub fn rows() -> Vec<Row> {
    let group = &KINDS[kinds::number_of("group")];
    let links = kinds::links(group, EXT, 1);
    let [field, far] = [QUARKS, NINE_STEPS].map(|quarks| Field::new(&links, quarks));
    let [one, two] = [1, 2].map(|count| Adding::new(&links, count));
    let made: [Pass; 2] = [loops, rust_loops];
    let given: [Pass; 2] = [loops, rust_loops_on_paths];
    vec![
        staircases(),
        field.row("path of 24 steps, 8^4", [paths, rust_paths]),
        field.row("time_line of 8, 8^4", [lines, rust_lines]),
        field.row("baryon_loop, 8^4 (Rust: staircases in each call)", made),
        field.row("baryon_loop, 8^4 (Rust: paths from before)", given),
        far.row("baryon_loop, 9 steps (Rust: staircases in each call)", made),
        far.row("baryon_loop, 9 steps (Rust: paths from before)", given),
        one.row("add, one density, 8^4, a site"),
        two.row("add, two densities, 8^4, a site"),
    ]
}

fn staircases() -> Row {
    let steps = vec![Cell::new(0); 96];
    let rattle = || u64::from(face::staircase(&black_box(FAR), &steps).1[0]);
    let rust = || rust_staircase(black_box(FAR)).len() as u64;
    let sides: [&dyn Fn() -> u64; 2] = [&rattle, &rust];
    Row::race("staircase (32, 31, 30)", STAIRCASES, sides, |call| {
        (0..STAIRCASES).fold(0, |sum, _| sum ^ call())
    })
}

#[inline(never)]
fn rust_staircase(offset: Offset) -> Steps {
    staircase(offset)
}

impl Field {
    fn new(links: &[f64], quarks: Quarks) -> Self {
        let steps = staircase(PATH);
        let byte = |&(axis, forward): &(usize, bool)| 2 * axis as u8 + u8::from(forward);
        Self {
            lent: links.iter().copied().map(Cell::new).collect(),
            lattice: flat::lattice(EXT, links),
            bytes: steps.iter().map(byte).map(Cell::new).collect(),
            steps,
            quarks,
            offsets: flat_offsets(quarks),
            paths: quarks.map(staircase),
        }
    }

    fn row(&self, call: &'static str, sides: [Pass; 2]) -> Row {
        Row::race(call, SITES, sides, |pass| pass(self))
    }
}

fn flat_offsets(quarks: Quarks) -> Offsets {
    std::array::from_fn(|at| quarks[at / 3][at % 3])
}

fn paths(field: &Field) -> u64 {
    (0..SITES).fold(0, |sum, site| {
        let ((_, out), _) = face::path(&EXT, site, &field.lent, &field.bytes);
        sum ^ out[0].to_bits()
    })
}

fn rust_paths(field: &Field) -> u64 {
    (0..SITES).fold(0, |sum, site| {
        let (out, _) = rust_path(&field.lattice, site, &field.steps);
        sum ^ out.m[0][0].re.to_bits()
    })
}

#[inline(never)]
fn rust_path(lattice: &Su3Lattice, site: usize, steps: &[(usize, bool)]) -> (Su3, usize) {
    lattice.path(site, steps)
}

fn lines(field: &Field) -> u64 {
    (0..SITES).fold(0, |sum, site| {
        let ((_, out), _) = face::time_line(&EXT, site, LINE, &field.lent);
        sum ^ out[0].to_bits()
    })
}

fn rust_lines(field: &Field) -> u64 {
    (0..SITES).fold(0, |sum, site| {
        let (out, _) = rust_line(&field.lattice, site, LINE);
        sum ^ out.m[0][0].re.to_bits()
    })
}

#[inline(never)]
fn rust_line(lattice: &Su3Lattice, site: usize, length: usize) -> (Su3, usize) {
    lattice.time_line(site, length)
}

fn loops(field: &Field) -> u64 {
    (0..SITES).fold(0, |sum, site| {
        let (_, [out]) = face::baryon_loop(&EXT, site, &field.offsets, LENGTH, &field.lent);
        sum ^ out.to_bits()
    })
}

fn rust_loops(field: &Field) -> u64 {
    (0..SITES).fold(0, |sum, site| {
        let paths = black_box(field.quarks).map(rust_staircase);
        sum ^ rust_loop(&field.lattice, site, &paths).to_bits()
    })
}

fn rust_loops_on_paths(field: &Field) -> u64 {
    (0..SITES).fold(0, |sum, site| {
        sum ^ rust_loop(&field.lattice, site, &field.paths).to_bits()
    })
}

#[inline(never)]
fn rust_loop(lattice: &Su3Lattice, site: usize, paths: &[Steps; 3]) -> f64 {
    lattice.baryon_loop(site, paths, LENGTH)
}

/// An accumulator for both sides, to which the same field and its action density are added again and
/// again.
struct Adding {
    count: usize,
    lent: Vec<Cell<f64>>,
    densities: Vec<Cell<f64>>,
    grid: Vec<Cell<f64>>,
    scratch: Vec<Cell<f64>>,
    to: Cell<Accumulator>,
    whole: Whole,
    density: Vec<f64>,
    own: RefCell<whole::FluxAccumulator>,
}

impl Adding {
    fn new(links: &[f64], count: usize) -> Self {
        let whole = whole_flat::lattice(EXT, links);
        let density = whole.field_strength().action_density();
        let grid = vec![Cell::new(0.0); count * CELLS];
        let n = [EXT[1], EXT[2], EXT[3]];
        let offsets = flat_offsets(QUARKS);
        let ((_, counts), sums) = face::new_accumulator(&n, &offsets, LENGTH, count as u32, &grid);
        Self {
            count,
            lent: links.iter().copied().map(Cell::new).collect(),
            densities: density.repeat(count).into_iter().map(Cell::new).collect(),
            scratch: vec![Cell::new(0.0); 2 * grid.len()],
            grid,
            to: Cell::new(Accumulator {
                counts,
                offsets,
                sums,
            }),
            own: whole::FluxAccumulator::new(n, QUARKS, LENGTH, count).into(),
            whole,
            density,
        }
    }

    fn row(&self, call: &'static str) -> Row {
        let sides: [fn(&Self) -> u64; 2] = [Self::add, Self::rust_add];
        Row::race(call, SITES, sides, |pass| pass(self))
    }

    fn add(&self) -> u64 {
        let lists = [&self.grid[..], &self.scratch];
        let count = self.count as u32;
        let (refusal, after) = face::add(
            self.to.get(),
            &EXT,
            count,
            &self.lent,
            &self.densities,
            lists,
        );
        assert!(refusal == 0, "an addition was refused");
        self.to.set(after);
        self.grid[0].get().to_bits()
    }

    fn rust_add(&self) -> u64 {
        let own = &mut *self.own.borrow_mut();
        own.add(&self.whole, &vec![&self.density[..]; self.count]);
        own.sums().0.to_bits()
    }
}
