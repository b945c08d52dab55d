//! The lines of staircases, paths, loops and accumulators, which are the last. A step is the number
//! 2 * axis + (1 where forward). First
//!
//!     staircases HASH                      all 274,625: x, y, z from -32 to 32 each, z fastest
//!     staircase X Y Z COUNT STEP ...       0 0 0, 1 1 0, 2 1 0, 0 0 -2, 0 5 1, 2 3 1, 3 1 2
//!
//! where each staircase adds its count to the hash, and then its steps. Then for each kind, in the
//! order above, with the field that is made above for extents 2 6 4 2:
//!
//!     baryon KIND
//!     paths HASH             site by site: from site n a path of n steps
//!     time_lines HASH        site by site: time lengths 0, 1, 3, 64
//!     baryon_loops HASH      site by site: the four loops below
//!     baryon_loop ROW F64    site 0, the first of them
//!
//! Step k of the path from site n is the top three bits of draw k of the stream of seed S, pass 5,
//! direction 0, site n. A path and a line add their 18 numbers to the hash and then the site where they
//! end, a loop adds its number, and a refused call its refusal number alone. The loops' quarks and time
//! lengths are
//!
//!     (1,0,0) (0,1,0) (0,0,1)             2
//!     (0,5,1) (2,3,1) (3,1,2)             3
//!     (2,-1,0) (0,0,-2) (0,0,0)           0
//!     (32,31,30) (-32,-32,-32) (7,0,-1)   64
//!
//! Then, still for this kind, an accumulator of grid 2 4 2 with the quarks and the time length of the
//! second loop and two densities. The field of this kind and seed with extents 2 2 4 2 is added to it,
//! then the one with extents 4 2 4 2, each with its action density and its topological charge density:
//!
//!     add ROW SAMPLES F64 F64 F64 HASH HASH      twice
//!     mean_loop ROW F64
//!     correlation ROW HASH ROW HASH              number 0, 1
//!
//! An addition's line has the accumulator that comes back, its samples and its sums of loops and of
//! both densities, and then hashes over grid and scratch as they are after the call. The hashes of the
//! correlations are over the lists of 16 numbers. Every number is 7 in a list of densities before its
//! calls, where it stays if they are refused, in the scratch before each addition, in a correlation's
//! list before its call, and in the grid before the accumulator is made, which sets it to +0.

use super::{SEED, answer, hash::Hash, over};
use crate::calls::{
    self, Added, BARYON_LOOP, CORRELATION, MEAN_LOOP, PATH, TIME_LINE, bytes, correlation,
};
use crate::face::{Four, Offset, Offsets};
use crate::flat;
use crate::ground::Lists;
use crate::kinds::{self, Kind};
use crate::reference::su3::lattice::Su3Lattice;
use crate::reference::su3::rng::Rng;
use crate::rows::{self, Arguments, Flux};
use std::fmt::{Result, Write};

const EXTENTS: Four = [2, 6, 4, 2];
const SPELLED: [Offset; 7] = [
    [0, 0, 0],
    [1, 1, 0],
    [2, 1, 0],
    [0, 0, -2],
    [0, 5, 1],
    [2, 3, 1],
    [3, 1, 2],
];
const LENGTHS: [u64; 4] = [0, 1, 3, 64];
const LOOPS: [(Offsets, u64); 4] = [
    ([1, 0, 0, 0, 1, 0, 0, 0, 1], 2),
    ([0, 5, 1, 2, 3, 1, 3, 1, 2], 3),
    ([2, -1, 0, 0, 0, -2, 0, 0, 0], 0),
    ([32, 31, 30, -32, -32, -32, 7, 0, -1], 64),
];
const ADDED: [Four; 2] = [[2, 2, 4, 2], [4, 2, 4, 2]];
const CELLS: usize = 16;

pub fn lines(to: &mut String) -> Result {
    let range = || -32..=32;
    let all = range().flat_map(|x| range().flat_map(move |y| range().map(move |z| [x, y, z])));
    let words = all.flat_map(|offset| {
        let steps = bytes(offset);
        let count = steps.len() as u64;
        [count].into_iter().chain(steps.into_iter().map(u64::from))
    });
    writeln!(to, "staircases {}", Hash::over(words))?;
    for [x, y, z] in SPELLED {
        let steps = bytes([x, y, z]);
        write!(to, "staircase {x} {y} {z} {}", steps.len())?;
        steps.iter().try_for_each(|step| write!(to, " {step}"))?;
        writeln!(to)?;
    }
    for kind in kinds::sampled() {
        walks(to, kind)?;
        flux(to, kind)?;
    }
    Ok(())
}

fn walks(to: &mut String, kind: &Kind) -> Result {
    let links = kinds::links(kind, EXTENTS, SEED);
    let lattice = &mut flat::lattice(EXTENTS, &links);
    let steps = (0..lattice.n_sites()).flat_map(steps_from).collect();
    let padded = Lists::new(links.clone(), vec![]).and_steps(steps).padded();
    let a = padded.arguments(EXTENTS, links.len(), 0);
    let sites = || (0..a.sites()).map(|site| Arguments { site, ..a });
    let paths = sites().map(|a| Arguments {
        steps: &padded.steps[a.site * a.site.saturating_sub(1) / 2..][..a.site],
        ..a
    });
    let lines = sites().flat_map(|a| LENGTHS.map(|length| walk(&a, (a.flux.offsets, length))));
    let loops = sites().flat_map(|a| LOOPS.map(|each| walk(&a, each)));
    writeln!(to, "baryon {}", kind.name)?;
    writeln!(to, "paths {}", over(&[PATH], paths, lattice))?;
    writeln!(to, "time_lines {}", over(&[TIME_LINE], lines, lattice))?;
    writeln!(to, "baryon_loops {}", over(&[BARYON_LOOP], loops, lattice))?;
    let first = answer(&BARYON_LOOP, &walk(&a, LOOPS[0]), lattice);
    writeln!(to, "baryon_loop{first}")
}

fn steps_from(site: usize) -> Vec<u8> {
    let mut rng = Rng::stream(SEED, 5, 0, site);
    (0..site).map(|_| (rng.next_u64() >> 61) as u8).collect()
}

fn walk<'a>(a: &Arguments<'a>, (offsets, length): (Offsets, u64)) -> Arguments<'a> {
    let flux = Flux {
        offsets,
        length,
        ..a.flux
    };
    Arguments { flux, ..*a }
}

fn flux(to: &mut String, kind: &Kind) -> Result {
    let (offsets, length) = LOOPS[1];
    let mut flux = Flux {
        n: [2, 4, 2],
        offsets,
        length,
        count: 2,
        samples: 0,
        sums: [0.0; 5],
    };
    let mut grid = vec![0.0; 2 * CELLS];
    for ext in ADDED {
        let links = kinds::links(kind, ext, SEED);
        let lattice = &flat::lattice(ext, &links);
        let lists = Lists::new(links, vec![]).and_flux(densities(lattice), grid.clone());
        let padded = lists.padded();
        let good = padded.adding(ext, 2);
        let added = Added::new(&Arguments { flux, ..good }, lattice).accepted();
        let row = if added.is_some() { 0 } else { 10 };
        if let Some(added) = added {
            (flux, grid) = (added.flux, added.grid);
        }
        writeln!(to, "add {row} {}", after(&flux, &grid))?;
    }
    means(to, flux, grid)
}

/// A list that its call does not fill keeps its sevens.
fn densities(lattice: &Su3Lattice) -> Vec<f64> {
    let strength = lattice.field_strength();
    let charge = strength.topological_charge_density();
    let each = [calls::action_density(&strength), charge];
    each.map(|list| {
        if rows::not_finite(&list) {
            vec![7.0; list.len()]
        } else {
            list
        }
    })
    .concat()
}

fn after(flux: &Flux, grid: &[f64]) -> String {
    let [w, s0, s1, ..] = flux.sums.map(f64::to_bits);
    let (grid, scratch) = (Hash::of_numbers(grid), vec![0.0; 4 * CELLS]);
    let scratch = Hash::of_numbers(&scratch);
    format!(
        "{} {w:016x} {s0:016x} {s1:016x} {grid} {scratch}",
        flux.samples
    )
}

fn means(to: &mut String, flux: Flux, grid: Vec<f64>) -> Result {
    let lists = Lists::new(vec![], vec![]).and_flux(vec![7.0; CELLS], grid);
    let padded = lists.padded();
    let a = Arguments {
        flux,
        grid: &padded.grid[..2 * CELLS],
        second: &padded.second[..CELLS],
        ..padded.arguments(ADDED[0], 0, 0)
    };
    let lattice = &mut Su3Lattice::cold(ADDED[0], 0.0, 0);
    writeln!(to, "mean_loop{}", answer(&MEAN_LOOP, &a, lattice))?;
    write!(to, "correlation")?;
    for number in 0..2 {
        let a = Arguments { number, ..a };
        let row = CORRELATION.expected(&a, lattice)[0];
        let list = if row == 0 {
            correlation(&a)
        } else {
            vec![7.0; CELLS]
        };
        write!(to, " {row} {}", Hash::of_numbers(&list))?;
    }
    writeln!(to)
}
