//! Every two situations that the calls of the baryon know, in one call: the first row wins. The rows
//! are written here, and not found by the table.

use super::{baryon, good};
use crate::calls::Call;
use crate::ground::{Ground, Padded};
use crate::rows::{Arguments, Part};
use crate::tally::Tally;
use std::cell::Cell;

/// A row, the parts that a call must take for it, of which the first is the one spoilt, and how. What
/// changes how long a list is to be is done before the lists are cut to their lengths; a list is
/// spoilt after that.
type Situation = (u32, &'static [Part], Spoil);

#[derive(Clone, Copy)]
enum Spoil {
    Numbers(fn(&mut Arguments)),
    List(for<'a> fn(&mut Arguments<'a>, &'a Padded)),
}

use Spoil::{List, Numbers};

const SITUATIONS: [Situation; 38] = [
    (1, &[Part::Extents], Numbers(|a| a.ext[0] = 3)),
    (1, &[Part::Cells], Numbers(|a| a.flux.n = [2, 3, 2])),
    (1, &[Part::Cells], Numbers(|a| a.flux.n = [2, 2, 0])),
    (1, &[Part::Cells], Numbers(|a| a.flux.n = [18, 2, 2])),
    (
        3,
        &[Part::Links],
        List(|a, padded| a.links = longer(a.links, &padded.links)),
    ),
    (
        3,
        &[Part::Densities],
        List(|a, padded| a.second = longer(a.second, &padded.second)),
    ),
    (
        3,
        &[Part::Grid],
        List(|a, padded| a.grid = longer(a.grid, &padded.grid)),
    ),
    (
        3,
        &[Part::Scratch],
        List(|a, padded| a.scratch = longer(a.scratch, &padded.scratch)),
    ),
    (
        3,
        &[Part::Correlation],
        List(|a, padded| a.second = longer(a.second, &padded.second)),
    ),
    (3, &[Part::Count], Numbers(|a| a.count = u32::MAX)),
    (
        3,
        &[Part::Held, Part::Grid, Part::Asked],
        Numbers(|a| a.flux.count = 1 << 32),
    ),
    (
        3,
        &[Part::Held, Part::Grid, Part::Asked],
        Numbers(|a| a.flux.count = u64::MAX),
    ),
    (4, &[Part::Site], Numbers(|a| a.site = 64)),
    (
        11,
        &[Part::Steps],
        List(|a, padded| a.steps = &padded.steps[..97]),
    ),
    (
        11,
        &[Part::Steps],
        List(|a, padded| a.steps = &padded.steps[97..98]),
    ),
    (11, &[Part::Offset], Numbers(|a| a.flux.offsets[0] = 33)),
    (11, &[Part::Offset], Numbers(|a| a.flux.offsets[2] = -33)),
    (11, &[Part::Offsets], Numbers(|a| a.flux.offsets[0] = -33)),
    (11, &[Part::Offsets], Numbers(|a| a.flux.offsets[8] = 33)),
    (
        11,
        &[Part::Offsets],
        Numbers(|a| a.flux.offsets[4] = i32::MIN),
    ),
    (11, &[Part::Length], Numbers(|a| a.flux.length = 65)),
    (11, &[Part::Length], Numbers(|a| a.flux.length = u64::MAX)),
    (
        12,
        &[Part::Stairs],
        List(|a, _| a.steps = &a.steps[..a.steps.len() - 1]),
    ),
    (13, &[Part::Count], Numbers(|a| a.count = 0)),
    (13, &[Part::Count], Numbers(|a| a.count = 5)),
    (13, &[Part::Count, Part::Held], Numbers(|a| a.count = 1)),
    (13, &[Part::Held], Numbers(|a| a.flux.count = 0)),
    (13, &[Part::Held], Numbers(|a| a.flux.count = 5)),
    (
        13,
        &[Part::Held, Part::Count],
        Numbers(|a| a.flux.count = (1 << 32) + 2),
    ),
    (13, &[Part::Number], Numbers(|a| a.number = 5)),
    (
        13,
        &[Part::Cells, Part::Extents],
        Numbers(|a| a.flux.n = [4, 2, 2]),
    ),
    (
        13,
        &[Part::Cells, Part::Extents],
        Numbers(|a| a.flux.n = [2, 2, 4]),
    ),
    (13, &[Part::Samples], Numbers(|a| a.flux.samples = u64::MAX)),
    (14, &[Part::Asked], Numbers(|a| a.flux.samples = 0)),
    (
        14,
        &[Part::Sums, Part::Number],
        Numbers(|a| a.flux.sums[0] = -0.0),
    ),
    (
        14,
        &[Part::Sums, Part::Number],
        Numbers(|a| a.flux.sums = [1e-200; 5]),
    ),
    (10, &[Part::Sums], Numbers(|a| a.flux.sums[0] = f64::NAN)),
    (
        10,
        &[Part::Sums, Part::Scratch],
        Numbers(|a| a.flux.sums[4] = f64::INFINITY),
    ),
];

pub fn compare(tally: &mut Tally, ground: &Ground, call: &Call, padded: &Padded) {
    let all: Vec<&Situation> = SITUATIONS
        .iter()
        .filter(|(_, parts, _)| parts.iter().all(|part| call.takes.contains(part)))
        .collect();
    for (number, one) in all.iter().enumerate() {
        hold(tally, ground, call, padded, &[one]);
        for other in &all[..number] {
            // Two that spoil the same are no pair.
            if other.1[0] != one.1[0] {
                hold(tally, ground, call, padded, &[other, one]);
            }
        }
    }
}

fn hold(tally: &mut Tally, ground: &Ground, call: &Call, padded: &Padded, met: &[&Situation]) {
    let mut a = good(call, padded);
    for (_, _, spoil) in met {
        if let Numbers(spoil) = spoil {
            spoil(&mut a);
        }
    }
    a = baryon::fitted(a, call, padded);
    for (_, _, spoil) in met {
        if let List(spoil) = spoil {
            spoil(&mut a, padded);
        }
    }
    // Row 10 comes last.
    let rows = met.iter().map(|(row, _, _)| *row);
    let first = rows
        .min_by_key(|&row| (row == 10, row))
        .expect("one at least");
    ground.hold(tally, call, &a, padded, call.refused(first, &a));
}

/// By a number where there is one: an empty list cannot be shorter.
fn longer<'a, T>(list: &[Cell<T>], padded: &'a [Cell<T>]) -> &'a [Cell<T>] {
    baryon::front(padded, list.len() + 1)
}
