//! Staircases, paths and loops. A staircase is the first quark's.

use super::{Call, checked, numbers};
use crate::face::{self, Offset, Walked};
use crate::flat;
use crate::reference::su3::baryon::staircase;
use crate::reference::su3::mat::Su3;
use crate::rows;
use crate::rows::Part::{self, Extents, Length, Links, Offsets, Site, Stairs, Steps};
use crate::tally::{Words, answer, refused, words};
use std::cell::Cell;

pub const STAIRCASE: Call = Call {
    name: "jj_staircase",
    takes: &[Part::Offset, Stairs],
    width: 1,
    rattle: |a| {
        let (refusal, [count]) = face::staircase(&a.offset(), a.steps);
        answer(refusal, [count.into()])
    },
    rust: |a, _| answer(0, [staircase(a.offset()).len() as u64]),
    keeps: None,
    writes: Some(|a, _, lists| {
        let steps = bytes(a.offset());
        lists.steps[..steps.len()].copy_from_slice(&steps);
    }),
};

pub const PATH: Call = Call {
    name: "jj_path",
    takes: &[Extents, Links, Site, Steps],
    width: 19,
    rattle: |a| walked(face::path(&a.ext, a.site, a.links, a.steps)),
    rust: |a, lattice| ended(lattice.path(a.site, &steps(a.steps))),
    keeps: None,
    writes: None,
};

pub const TIME_LINE: Call = Call {
    name: "jj_time_line",
    takes: &[Extents, Links, Site, Length],
    width: 19,
    rattle: |a| {
        let length = a.flux.length as usize;
        walked(face::time_line(&a.ext, a.site, length, a.links))
    },
    rust: |a, lattice| ended(lattice.time_line(a.site, a.flux.length as usize)),
    keeps: None,
    writes: None,
};

pub const BARYON_LOOP: Call = Call {
    name: "jj_baryon_loop",
    takes: &[Extents, Links, Site, Offsets, Length],
    width: 1,
    rattle: |a| {
        let (offsets, length) = (&a.flux.offsets, a.flux.length as usize);
        numbers(face::baryon_loop(&a.ext, a.site, offsets, length, a.links))
    },
    rust: |a, lattice| {
        let paths = a.flux.quarks().map(staircase);
        checked(&[lattice.baryon_loop(a.site, &paths, a.flux.length as usize)])
    },
    keeps: None,
    writes: None,
};

/// The steps of the reference's staircase as the header has them.
pub fn bytes(offset: Offset) -> Vec<u8> {
    let byte = |(axis, forward)| 2 * axis as u8 + u8::from(forward);
    staircase(offset).into_iter().map(byte).collect()
}

/// As the reference has them.
fn steps(bytes: &[Cell<u8>]) -> Vec<(usize, bool)> {
    let step = |byte: &Cell<u8>| (usize::from(byte.get() / 2), byte.get() % 2 == 1);
    bytes.iter().map(step).collect()
}

fn walked(((refusal, matrix), [end]): Walked) -> Words {
    answer(refusal, words(&matrix).into_iter().chain([end as u64]))
}

/// The same of the reference's, which row 10 checks.
fn ended((matrix, end): (Su3, usize)) -> Words {
    let matrix = flat::numbers(&matrix);
    if rows::not_finite(&matrix) {
        refused(10, 19)
    } else {
        walked(((0, matrix), [end]))
    }
}
