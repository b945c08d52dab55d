//! What the cabinet prints, worked out by the reference, and the programs that are held to it.
//!
//! The listing has, for each input, a line of its bytes in decimal and then the whole text:
//!
//!     input: 2 2 2 2
//!     sites 16
//!     ...
//!
//! and for no bytes `input:` alone.

mod inputs;
mod programs;

pub use programs::compare;

use crate::calls::N_SITES;
use crate::face::{Four, Offset};
use crate::ground::Lists;
use crate::reference::su3::baryon::staircase;
use crate::reference::su3::lattice::Su3Lattice;
use crate::rows;
use crate::update;
use std::fmt::{self, Write};

const MOST_SITES: usize = 64;
const COUPLING: f64 = 6.0;
const QUARKS: [Offset; 3] = [[1, 0, 0], [0, 1, 0], [0, 0, 1]];
const TIME_LENGTH: usize = 2;
/// Of the half-sweep.
const DIRECTION: usize = 0;
const PARITY: usize = 0;
const FRAMES: [usize; 3] = [3, 0, 9];

pub fn listing() -> String {
    let each = inputs::listed().into_iter();
    each.map(|input| format!("input:{}\n{}", bytes(&input), text(&input)))
        .collect()
}

/// Each after a space.
fn bytes(input: &[u8]) -> String {
    input.iter().map(|byte| format!(" {byte}")).collect()
}

fn text(input: &[u8]) -> String {
    match extents(input) {
        Ok(ext) => {
            let mut lines = String::new();
            measurements(&mut lines, ext).expect("a string takes any text");
            lines
        }
        Err(row) => format!("refused {row}\n"),
    }
}

/// Or the row that refuses the input: the count of bytes is tried first, then row 1, then the sites.
fn extents(input: &[u8]) -> Result<Four, u32> {
    let bytes: [u8; 4] = input.try_into().map_err(|_| 15u32)?;
    let padded = Lists::new(vec![], vec![]).padded();
    let a = padded.arguments(bytes.map(usize::from), 0, 0);
    match rows::refusal(N_SITES.takes, &a) {
        0 if a.sites() > MOST_SITES => Err(15),
        0 => Ok(a.ext),
        row => Err(row),
    }
}

fn measurements(to: &mut String, ext: Four) -> fmt::Result {
    let lattice = Su3Lattice::cold(ext, COUPLING, 0);
    let polyakov = lattice.polyakov_loop();
    let baryon = lattice.baryon_loop(0, &QUARKS.map(staircase), TIME_LENGTH);
    writeln!(to, "sites {}", lattice.n_sites())?;
    for (name, number) in [
        ("plaquette", lattice.average_plaquette()),
        ("action", lattice.action()),
        ("loop-re", polyakov.re),
        ("loop-im", polyakov.im),
        ("baryon", baryon),
    ] {
        writeln!(to, "{name} {:016x}", number.to_bits())?;
    }
    let mut visited = 0;
    for size in FRAMES {
        visited = (visited + size).min(lattice.n_sites() / 2);
        writeln!(to, "frame-{size} {visited}")?;
    }
    let sites = &lattice.sites_of(PARITY)[..visited];
    let visits = update::visits(&lattice, DIRECTION, sites);
    writeln!(to, "stuck {}", update::stuck(&visits))
}
