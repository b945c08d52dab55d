//! Half-sweeps in frames, on a field of the group, which overrelaxation keeps rough: no link is ever
//! stuck. Both sides begin with the same links and go the same way.

use super::flat;
use super::reference::su3::lattice as whole;
use crate::face::{self, Four, Job, Mat};
use crate::inputs::Source;
use crate::kinds::{self, KINDS};
use crate::reference::su3::lattice::overrelaxed;
use crate::reference::su3::mat::Su3;
use crate::reference::su3::rng::Rng;
use crate::stopwatch::{self, Row};
use std::cell::{Cell, RefCell};

/// The sites of a frame.
const FRAME: usize = 64;
/// Those of the frames whose time is shown by itself, and how many of them one pass has.
const SMALL_FRAME: usize = 8;
const FRAMES: usize = 16;

/// Pairs of one pass of single updates.
const PAIRS: usize = 1 << 10;

const SIDES: [usize; 3] = [4, 8, 16];

struct Field {
    ext: Four,
    sites: usize,
    lent: Vec<Cell<f64>>,
    lattice: RefCell<whole::Su3Lattice>,
    /// Half-sweeps so far, on Rattle's side.
    pass: Cell<u64>,
}

/// One side of a row.
type Pass = fn(&Field) -> u64;

impl Field {
    fn new(ext: Four) -> Self {
        let group = &KINDS[kinds::number_of("group")];
        let links = kinds::links(group, ext, 1);
        Self {
            ext,
            sites: ext.iter().product(),
            lattice: flat::lattice(ext, &links).into(),
            lent: links.into_iter().map(Cell::new).collect(),
            pass: Cell::new(0),
        }
    }

    /// A pass is a half-sweep, a call the update of one link in it.
    fn row(&self, call: &'static str) -> Row {
        let sides: [Pass; 2] = [half_sweep, rust_half_sweep];
        Row::race(call, self.sites / 2, sides, |pass| pass(self))
    }

    fn open(&self, mu: usize, parity: usize) -> Job {
        let plan = [1, self.pass.get()];
        let (_, job, pass) = face::open_overrelax(&self.ext, 6.0, plan, mu, parity);
        self.pass.set(pass);
        job
    }

    /// Nanoseconds for a small frame: the first ones of a half-sweep, the last ones, and all of them.
    fn small_frames(&self) -> [f64; 3] {
        let half = self.sites / 2;
        let begin = |visited: usize| {
            let mut job = self.open(1, 0);
            job[6] = visited as u64;
            job
        };
        let frames = |job: Job, count: usize| {
            let step = |job, _| face::frame_overrelax(job, SMALL_FRAME, &self.lent).1;
            (0..count).fold(job, step)[7]
        };
        let all = half / SMALL_FRAME;
        let starts = [(0, FRAMES), (half - FRAMES * SMALL_FRAME, FRAMES), (0, all)];
        starts.map(|(visited, count)| stopwatch::best(count, || frames(begin(visited), count)))
    }
}

pub fn rows() -> Vec<Row> {
    let [small, middle, large] = SIDES.map(|side| Field::new([side; 4]));
    vec![
        update_link(),
        small.row("half_sweep_overrelax, 4^4, frames of 64, a link"),
        middle.row("half_sweep_overrelax, 8^4, frames of 64, a link"),
        large.row("half_sweep_overrelax, 16^4, frames of 64, a link"),
    ]
}

/// What a frame costs by the size of the field.
pub fn print_frames() {
    println!(
        "| a frame of {SMALL_FRAME}, Rattle ns | first ones | last ones | mean of a half-sweep |"
    );
    println!("|---|---:|---:|---:|");
    for side in SIDES {
        let [first, last, mean] = Field::new([side; 4]).small_frames();
        println!("| {side}^4 | {first:.0} | {last:.0} | {mean:.0} |");
    }
}

/// Direction and parity after so many half-sweeps: they go round, so that all links move.
fn next(pass: u64) -> [usize; 2] {
    [pass / 2 % 4, pass % 2].map(|n| n as usize)
}

/// A host asks before each frame whether there is anything left.
fn half_sweep(field: &Field) -> u64 {
    let [mu, parity] = next(field.pass.get());
    let mut job = field.open(mu, parity);
    let mut frames = (field.sites / 2).div_ceil(FRAME);
    while frames > 0 && face::finished(&job).1 == [0] {
        job = face::frame_overrelax(job, FRAME, &field.lent).1;
        frames -= 1;
    }
    assert!(job[7] == 0, "a link was stuck");
    field.lent[0].get().to_bits()
}

fn rust_half_sweep(field: &Field) -> u64 {
    let lattice = &mut *field.lattice.borrow_mut();
    let [mu, parity] = next(lattice.pass());
    lattice.half_sweep_overrelax(mu, parity);
    lattice.links[0][0].m[0][0].re.to_bits()
}

/// Of links of the group with matrices of any size up to 1; both sides have them in their own form.
fn update_link() -> Row {
    let mut source = Source::new(11);
    let pairs: Vec<[Mat; 2]> = (0..PAIRS)
        .map(|_| {
            let [mut u, staple] =
                [(); 2].map(|()| crate::flat::matrix(&std::array::from_fn(|_| source.ordinary())));
            u.reunitarize();
            [u, staple].map(|m| crate::flat::numbers(&m))
        })
        .collect();
    let rust: Vec<[Su3; 2]> = pairs
        .iter()
        .map(|pair| pair.map(|m| crate::flat::matrix(&m)))
        .collect();
    let rattle_side = || {
        pairs.iter().fold(0, |sum, [u, staple]| {
            let mut out = [0.0; 18];
            face::jj_update_link(u, staple, &mut out);
            sum ^ out[0].to_bits()
        })
    };
    let rust_side = || {
        rust.iter().fold(0, |sum, [u, staple]| {
            let mut out = Su3::ZERO;
            rust_update_link(u, staple, &mut out);
            sum ^ out.m[0][0].re.to_bits()
        })
    };
    let sides: [&dyn Fn() -> u64; 2] = [&rattle_side, &rust_side];
    Row::race("update_link", PAIRS, sides, |pass| pass())
}

#[inline(never)]
extern "C" fn rust_update_link(u: &Su3, staple: &Su3, out: &mut Su3) {
    *out = overrelaxed(*u, staple, &mut Rng::of_state([1, 2, 3, 4]));
}
