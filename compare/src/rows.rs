//! The document's table of refusals, for the calls of matrices, lattice, sweep, fields and baryon: from
//! what a call is handed to the number of the first row that holds.

mod flux;

pub use flux::Flux;

use crate::face::{self, Four, Offset};
use std::cell::Cell;

/// What a call of the lattice, of the sweep, of the fields or of the baryon can be handed. A job's
/// extents are `Extents`.
#[derive(Clone, Copy, PartialEq)]
pub enum Part {
    Extents,
    Coupling,
    Links,
    Site,
    Coordinates,
    Direction,
    /// The second direction of a plane.
    Other,
    Parity,
    Pass,
    Job,
    /// Of a frame; nothing checks it.
    Size,
    Room,
    /// Of a smearing; nothing checks it.
    Rho,
    /// Of the electric field: 0, 1, 2 for x, y, z.
    Axis,
    /// The second list, for smeared links.
    Smeared,
    /// The second list, for one number of each site.
    Density,
    /// The first quark's.
    Offset,
    Offsets,
    /// Of lines in time.
    Length,
    /// The list of steps, to be walked.
    Steps,
    /// The list of steps, to be written.
    Stairs,
    /// The extents of an accumulator's grid.
    Cells,
    /// How many densities the call has.
    Count,
    /// How many the accumulator has.
    Held,
    /// The second list, with the call's densities.
    Densities,
    Grid,
    Scratch,
    /// Of an accumulator that is added to.
    Samples,
    /// The samples of an accumulator that is asked for its means.
    Asked,
    /// Of an accumulator.
    Sums,
    /// Of a density.
    Number,
    /// The second list, for one number of each cell.
    Correlation,
}

/// A job but for its extents.
#[derive(Clone, Copy, Default)]
pub struct Job {
    pub direction: u64,
    pub parity: u64,
    pub visited: u64,
    pub stuck: u64,
    pub pass: u64,
}

impl Job {
    /// As the header has it.
    pub fn over(self, ext: Four) -> face::Job {
        let [t, x, y, z] = ext.map(|n| n as u64);
        let Self {
            direction,
            parity,
            visited,
            stuck,
            pass,
        } = self;
        [t, x, y, z, direction, parity, visited, stuck, pass]
    }
}

/// All that any of these calls can be handed; each takes its parts of it. The lists are cells: they
/// are the lent ones, and a call may write to them.
#[derive(Clone, Copy)]
pub struct Arguments<'a> {
    pub ext: Four,
    pub coupling: f64,
    pub seed: u64,
    pub links: &'a [Cell<f64>],
    pub site: usize,
    pub at: Four,
    pub mu: usize,
    pub nu: usize,
    pub parity: usize,
    pub pass: u64,
    pub job: Job,
    pub size: usize,
    pub found: &'a [Cell<u32>],
    pub rho: f64,
    pub axis: usize,
    pub second: &'a [Cell<f64>],
    pub steps: &'a [Cell<u8>],
    pub flux: Flux,
    pub count: u32,
    pub number: u32,
    pub grid: &'a [Cell<f64>],
    pub scratch: &'a [Cell<f64>],
}

impl Arguments<'_> {
    /// Does not wrap where row 1 does not hold.
    pub fn sites(&self) -> usize {
        self.ext.iter().product()
    }

    /// The first quark's.
    pub fn offset(&self) -> Offset {
        let [x, y, z, ..] = self.flux.offsets;
        [x, y, z]
    }
}

type Row = fn(&[Part], &Arguments) -> bool;

/// In the order in which they are tried. Rows 9 and 10, on the answer, come after all of them.
const ROWS: [(u32, Row); 12] = [
    (1, extents),
    (2, coupling),
    (3, lengths),
    (4, places),
    (5, directions),
    (6, parities),
    (7, passes),
    (8, jobs),
    (11, flux::paths),
    (12, rooms),
    (13, flux::densities),
    (14, flux::means),
];

/// 0 where a call that takes these parts is accepted as far as its arguments go.
pub fn refusal(parts: &[Part], a: &Arguments) -> u32 {
    let first = ROWS.iter().find(|(_, holds)| holds(parts, a));
    first.map_or(0, |(number, _)| *number)
}

/// Row 5 for a subgroup, which is all that a call of a matrix is checked by.
pub fn of_subgroup(subgroup: usize) -> u32 {
    if subgroup > 2 { 5 } else { 0 }
}

/// Row 10: a number to be answered or stored is not finite.
pub fn not_finite(numbers: &[f64]) -> bool {
    numbers.iter().any(|x| !x.is_finite())
}

/// An extent odd, below 2 or above 16.
fn extents(parts: &[Part], a: &Arguments) -> bool {
    let bad = |n: u64| n % 2 == 1 || !(2..=16).contains(&n);
    let field = parts.contains(&Part::Extents) && a.ext.into_iter().any(|n| bad(n as u64));
    field || (parts.contains(&Part::Cells) && a.flux.n.into_iter().any(bad))
}

/// Not finite, below 0 or above 100; -0 is not below 0.
fn coupling(parts: &[Part], a: &Arguments) -> bool {
    let good = a.coupling.is_finite() && (0.0..=100.0).contains(&a.coupling);
    parts.contains(&Part::Coupling) && !good
}

/// A list of links that has not 72 numbers for each site, or another list of wrong length.
fn lengths(parts: &[Part], a: &Arguments) -> bool {
    let links = parts.contains(&Part::Links) && a.links.len() != 72 * a.sites();
    let second = second(parts).is_some_and(|each| a.second.len() != each * a.sites());
    links || second || flux::lengths(parts, a)
}

/// How many numbers for each site the second list has, where a call that takes these parts fills one
/// so.
pub fn second(parts: &[Part]) -> Option<usize> {
    parts.iter().find_map(|part| match part {
        Part::Smeared => Some(72),
        Part::Density => Some(1),
        _ => None,
    })
}

/// A site not below the sites, or a coordinate not below its extent.
fn places(parts: &[Part], a: &Arguments) -> bool {
    let site = parts.contains(&Part::Site) && a.site >= a.sites();
    let outside = || a.at.iter().zip(&a.ext).any(|(c, n)| c >= n);
    site || (parts.contains(&Part::Coordinates) && outside())
}

/// A direction above 3, a plane's two equal, or an electric axis above 2.
fn directions(parts: &[Part], a: &Arguments) -> bool {
    let one = parts.contains(&Part::Direction) && a.mu > 3;
    let axis = parts.contains(&Part::Axis) && a.axis > 2;
    one || axis || (parts.contains(&Part::Other) && (a.nu > 3 || a.mu == a.nu))
}

/// A parity above 1.
fn parities(parts: &[Part], a: &Arguments) -> bool {
    parts.contains(&Part::Parity) && a.parity > 1
}

/// Opening with the last pass, after which there is none.
fn passes(parts: &[Part], a: &Arguments) -> bool {
    parts.contains(&Part::Pass) && a.pass == u64::MAX
}

/// A job's visited above half the sites, its stuck above visited, or its direction or parity out of
/// range. Its pass is not checked.
fn jobs(parts: &[Part], a: &Arguments) -> bool {
    let job = a.job;
    let counts = || job.visited > a.sites() as u64 / 2 || job.stuck > job.visited;
    parts.contains(&Part::Job) && (counts() || job.direction > 3 || job.parity > 1)
}

/// Room for unsound links below four times the sites, or for steps below the steps needed.
fn rooms(parts: &[Part], a: &Arguments) -> bool {
    let unsound = parts.contains(&Part::Room) && a.found.len() < 4 * a.sites();
    let steps = || a.offset().iter().map(|c| c.unsigned_abs() as usize).sum();
    unsound || (parts.contains(&Part::Stairs) && a.steps.len() < steps())
}
