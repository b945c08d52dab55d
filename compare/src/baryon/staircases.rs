//! Every staircase there is, in room that is just enough, in more, and in one too little; and offsets
//! outside the range.

use crate::calls::STAIRCASE;
use crate::face::{self, Offset};
use crate::ground::{Ground, Lists, Padded};
use crate::rows::{Arguments, Flux};
use crate::tally::{Tally, answer};
use std::cell::Cell;

/// In every place of the list before a call; no step.
const MARK: u8 = 0xaa;
const MOST: usize = 128;

/// Within the range, at its ends, past them and far out.
const COMPONENTS: [i32; 13] = [
    0,
    1,
    -1,
    32,
    -32,
    33,
    -33,
    65,
    -1000,
    i32::MAX,
    i32::MIN,
    i32::MAX - 31,
    i32::MIN + 32,
];

/// The document's.
const KNOWN: [(Offset, &[u8]); 4] = [
    ([0, 0, 0], &[]),
    ([1, 1, 0], &[3, 5]),
    ([2, 1, 0], &[3, 5, 3]),
    ([0, 0, -2], &[6, 6]),
];

pub fn compare(tally: &mut Tally) {
    let lists = Lists::new(vec![], vec![]).and_steps(vec![MARK; MOST]);
    let padded = lists.padded();
    let mut ground = Ground::bare([2; 4], lists);
    for offset in cube(-32..=32) {
        let needed = offset.map(i32::abs).iter().sum::<i32>() as usize;
        for room in [needed, needed + 1 + needed % 31] {
            let a = arguments(&padded, offset, room);
            ground.check(tally, &STAIRCASE, &a, &padded);
        }
        if let Some(room) = needed.checked_sub(1) {
            let a = arguments(&padded, offset, room);
            ground.hold(tally, &STAIRCASE, &a, &padded, STAIRCASE.refused(12, &a));
        }
    }
    for offset in cube(COMPONENTS) {
        for room in [0, 95, 96, MOST] {
            let a = arguments(&padded, offset, room);
            ground.check(tally, &STAIRCASE, &a, &padded);
        }
    }
    for (offset, steps) in KNOWN {
        known(tally, &padded, offset, steps);
        ground.restore(&padded);
    }
}

fn cube(components: impl IntoIterator<Item = i32> + Clone) -> impl Iterator<Item = Offset> {
    let of = move || components.clone().into_iter();
    let planes = of().flat_map({
        let of = of.clone();
        move |x| of().map(move |y| [x, y])
    });
    planes.flat_map(move |[x, y]| of().map(move |z| [x, y, z]))
}

fn arguments(padded: &Padded, [x, y, z]: Offset, room: usize) -> Arguments<'_> {
    let a = padded.arguments([2; 4], 0, 0);
    Arguments {
        steps: &padded.steps[..room],
        flux: Flux {
            offsets: [x, y, z, 0, 0, 0, 0, 0, 0],
            ..a.flux
        },
        ..a
    }
}

fn known(tally: &mut Tally, padded: &Padded, offset: Offset, steps: &[u8]) {
    let (refusal, [count]) = face::staircase(&offset, &padded.steps);
    let front = padded.steps.iter().take(steps.len()).map(Cell::get);
    let rattle = answer(
        refusal,
        [count.into()].into_iter().chain(front.map(u64::from)),
    );
    let due = steps.iter().copied().map(u64::from);
    let rust = answer(0, [steps.len() as u64].into_iter().chain(due));
    let inputs = offset.map(|c| c as u64);
    tally.check("jj_staircase, the document's", &inputs, &rattle, &rust);
}
