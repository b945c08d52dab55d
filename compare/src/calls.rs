//! The calls of the lattice, of the sweep, of the fields and of the baryon, on both sides: what the
//! library answers, and what the document and the reference say.

mod baryon;
mod fields;
mod flux;
mod sweep;

pub use baryon::{BARYON_LOOP, PATH, STAIRCASE, TIME_LINE, bytes};
pub use fields::{
    ACTION_DENSITY, CLOVER_LEAVES, ELECTRIC_SQ, FIELD_STRENGTH_AT, STOUT_LINK, STOUT_STEP,
    TOPOLOGICAL_CHARGE_DENSITY, action_density, plane_densities, smeared, sum,
};
pub use flux::{ADD, Added, CORRELATION, MEAN_LOOP, NEW, correlation};
pub use sweep::{FINISHED, FRAME_OVERRELAX, OPEN_OVERRELAX, OVERRELAX_LINK};

use crate::face;
use crate::flat;
use crate::ground::Lists;
use crate::reference::su3::lattice::Su3Lattice;
use crate::rows::Part::{
    self, Coordinates, Coupling, Direction, Extents, Links, Other, Room, Site,
};
use crate::rows::{self, Arguments};
use crate::tally::{Words, answer, bits, refused};
use std::cell::Cell;

pub struct Call {
    pub name: &'static str,
    pub takes: &'static [Part],
    /// How many numbers it answers beside the refusal.
    pub width: usize,
    pub rattle: fn(&Arguments) -> Words,
    /// Where no row holds on the arguments.
    rust: fn(&Arguments, &Su3Lattice) -> Words,
    /// What it is handed and hands back after its other numbers: refused, as it was.
    keeps: Option<fn(&Arguments) -> Words>,
    /// What it then does to the lists, and where row 10 refuses it to a scratch.
    pub writes: Option<fn(&Arguments, &Su3Lattice, &mut Lists)>,
}

pub const N_SITES: Call = Call {
    name: "jj_n_sites",
    takes: &[Extents],
    width: 1,
    rattle: |a| counted(face::n_sites(&a.ext)),
    rust: |_, lattice| counted((0, [lattice.n_sites()])),
    keeps: None,
    writes: None,
};

pub const COORDS: Call = Call {
    name: "jj_coords",
    takes: &[Extents, Site],
    width: 4,
    rattle: |a| counted(face::coords(&a.ext, a.site)),
    rust: |a, lattice| counted((0, lattice.coords(a.site))),
    keeps: None,
    writes: None,
};

pub const INDEX: Call = Call {
    name: "jj_index",
    takes: &[Extents, Coordinates],
    width: 1,
    rattle: |a| counted(face::index(&a.ext, &a.at)),
    rust: |a, lattice| counted((0, [lattice.index(a.at)])),
    keeps: None,
    writes: None,
};

pub const PARITY: Call = Call {
    name: "jj_parity",
    takes: &[Extents, Site],
    width: 1,
    rattle: |a| counted(face::parity(&a.ext, a.site)),
    rust: |a, lattice| {
        let odd = lattice.sites_of(1).binary_search(&a.site).is_ok();
        counted((0, [usize::from(odd)]))
    },
    keeps: None,
    writes: None,
};

pub const FWD: Call = Call {
    name: "jj_fwd",
    takes: &[Extents, Site, Direction],
    width: 1,
    rattle: |a| counted(face::fwd(&a.ext, a.site, a.mu)),
    rust: |a, lattice| counted((0, [lattice.fwd(a.site, a.mu)])),
    keeps: None,
    writes: None,
};

pub const BWD: Call = Call {
    name: "jj_bwd",
    takes: &[Extents, Site, Direction],
    width: 1,
    rattle: |a| counted(face::bwd(&a.ext, a.site, a.mu)),
    rust: |a, lattice| counted((0, [lattice.bwd(a.site, a.mu)])),
    keeps: None,
    writes: None,
};

pub const COLD: Call = Call {
    name: "jj_cold",
    takes: &[Extents, Coupling, Links],
    width: 0,
    rattle: |a| answer(face::cold(&a.ext, a.coupling, a.seed, a.links), []),
    rust: |_, _| answer(0, []),
    keeps: None,
    writes: Some(|a, _, lists| {
        let cold = flat::links(&Su3Lattice::cold(a.ext, a.coupling, a.seed));
        lists.links[..cold.len()].copy_from_slice(&cold);
    }),
};

pub const PLAQUETTE: Call = Call {
    name: "jj_plaquette",
    takes: &[Extents, Links, Site, Direction, Other],
    width: 18,
    rattle: |a| numbers(face::plaquette(&a.ext, a.site, [a.mu, a.nu], a.links)),
    rust: |a, lattice| checked(&flat::numbers(&lattice.plaquette(a.site, a.mu, a.nu))),
    keeps: None,
    writes: None,
};

pub const STAPLE: Call = Call {
    name: "jj_staple",
    takes: &[Extents, Coupling, Links, Site, Direction],
    width: 18,
    rattle: |a| numbers(face::staple(&a.ext, a.coupling, [a.site, a.mu], a.links)),
    rust: |a, lattice| checked(&flat::numbers(&lattice.staple(a.site, a.mu))),
    keeps: None,
    writes: None,
};

/// The reference's sum over the sites begins at -0 in some versions of Rust's library, and the
/// library's at +0. That changes no answer: each site's own sum begins at +0, so it is never -0, and
/// any other first term gives the same sum from either zero. So nothing is excused here. The sums of
/// squares in `reunitarize` and `norm` have no -0 among their terms either.
pub const AVERAGE_PLAQUETTE: Call = Call {
    name: "jj_average_plaquette",
    takes: &[Extents, Links],
    width: 1,
    rattle: |a| numbers(face::average_plaquette(&a.ext, a.links)),
    rust: |_, lattice| checked(&[lattice.average_plaquette()]),
    keeps: None,
    writes: None,
};

pub const ACTION: Call = Call {
    name: "jj_action",
    takes: &[Extents, Coupling, Links],
    width: 1,
    rattle: |a| numbers(face::action(&a.ext, a.coupling, a.links)),
    rust: |_, lattice| checked(&[lattice.action()]),
    keeps: None,
    writes: None,
};

pub const POLYAKOV_LOOP: Call = Call {
    name: "jj_polyakov_loop",
    takes: &[Extents, Links],
    width: 2,
    rattle: |a| numbers(face::polyakov_loop(&a.ext, a.links)),
    rust: |_, lattice| {
        let mean = lattice.polyakov_loop();
        checked(&[mean.re, mean.im])
    },
    keeps: None,
    writes: None,
};

/// The order of its entries is open, so that they are put in order before they are compared.
pub const LINK_CHECK: Call = Call {
    name: "jj_link_check",
    takes: &[Extents, Links, Room],
    width: 1,
    rattle: |a| {
        let (refusal, [count]) = face::link_check(&a.ext, a.links, a.found);
        put_in_order(a.found, count);
        answer(refusal, [count.into()])
    },
    rust: |_, lattice| answer(0, [unsound(lattice).len() as u64]),
    keeps: None,
    writes: Some(|_, lattice, lists| {
        let unsound = unsound(lattice);
        lists.found[..unsound.len()].copy_from_slice(&unsound);
    }),
};

pub const CALLS: [Call; 32] = [
    N_SITES,
    COORDS,
    INDEX,
    PARITY,
    FWD,
    BWD,
    COLD,
    PLAQUETTE,
    STAPLE,
    AVERAGE_PLAQUETTE,
    ACTION,
    POLYAKOV_LOOP,
    LINK_CHECK,
    OVERRELAX_LINK,
    OPEN_OVERRELAX,
    FRAME_OVERRELAX,
    FINISHED,
    STOUT_LINK,
    STOUT_STEP,
    CLOVER_LEAVES,
    FIELD_STRENGTH_AT,
    ACTION_DENSITY,
    TOPOLOGICAL_CHARGE_DENSITY,
    ELECTRIC_SQ,
    STAIRCASE,
    PATH,
    TIME_LINE,
    BARYON_LOOP,
    NEW,
    ADD,
    MEAN_LOOP,
    CORRELATION,
];

impl Call {
    /// What the document says that the call answers, on a lattice that has the links.
    pub fn expected(&self, a: &Arguments, lattice: &mut Su3Lattice) -> Words {
        match rows::refusal(self.takes, a) {
            0 => {
                lattice.beta = a.coupling;
                (self.rust)(a, lattice)
            }
            row => self.refused(row, a),
        }
    }

    /// What it answers where this row refuses it.
    pub fn refused(&self, row: u32, a: &Arguments) -> Words {
        let kept = self.keeps.map_or(vec![], |keeps| keeps(a));
        [refused(row, self.width), kept].concat()
    }

    /// Whether it writes to lists where it answers this refusal number: a scratch is left clear where
    /// row 10 refuses, too.
    pub fn writes_at(&self, refusal: u64) -> bool {
        refusal == 0 || (refusal == 10 && self.takes.contains(&Part::Scratch))
    }
}

fn counted<const N: usize>((refusal, numbers): (u32, [usize; N])) -> Words {
    answer(refusal, numbers.map(|n| n as u64))
}

fn numbers<const N: usize>((refusal, numbers): (u32, [f64; N])) -> Words {
    answer(refusal, numbers.map(bits))
}

/// Numbers of the reference's, which row 10 checks.
pub fn checked<const N: usize>(numbers: &[f64; N]) -> Words {
    if rows::not_finite(numbers) {
        refused(10, N)
    } else {
        answer(0, numbers.map(bits))
    }
}

/// The answer of a call that stores these numbers, which row 10 checks.
fn stored(numbers: &[f64]) -> Words {
    let refused = rows::not_finite(numbers);
    answer(if refused { 10 } else { 0 }, [])
}

/// The links that have a number that is not finite or not from -1 to 1: direction times sites + site
/// of each, ascending.
pub fn unsound(lattice: &Su3Lattice) -> Vec<u32> {
    let sound = |x: &f64| x.is_finite() && x.abs() <= 1.0;
    let links = lattice.links.iter().flatten().map(flat::numbers);
    let unsound = links.zip(0..).filter(|(link, _)| !link.iter().all(sound));
    unsound.map(|(_, number)| number).collect()
}

/// A count that is more than the list has stays for the comparison to show.
fn put_in_order(found: &[Cell<u32>], count: u32) {
    if let Some(front) = found.get(..count as usize) {
        let mut entries: Vec<u32> = front.iter().map(Cell::get).collect();
        entries.sort_unstable();
        for (place, entry) in front.iter().zip(entries) {
            place.set(entry);
        }
    }
}
