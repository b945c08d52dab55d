//! Every row of the table that these calls have: its example, and then all arguments, good and bad,
//! with each other, so that each row is also met with others that hold. A call that takes an
//! accumulator has too many arguments for that: of its parts every two are crossed.

mod baryon;
mod situations;

use crate::calls::{CALLS, Call, OVERRELAX_LINK};
use crate::face::Four;
use crate::ground::{BEFORE, Ground, Lists, Padded};
use crate::kinds::{self, KINDS};
use crate::rows::{Arguments, Job, Part};
use crate::tally::Tally;

/// The two extents that are good here; the list of links is as long as the second ones want.
const GOOD: [Four; 2] = [[2, 2, 2, 2], [4, 2, 2, 2]];
const LINKS: usize = 72 * 32;
const FOUND: usize = 4 * 32;
/// The second list is as long as the list of links.
const SECOND: usize = LINKS;

/// Each in each place of the first good ones.
const BAD_SIDES: [usize; 9] = [0, 1, 3, 17, 18, 1 << 32, 1 << 60, 1 << 63, usize::MAX];

/// Several bad ones; some of these have products that wrap to 0 or to 16.
const BAD: [Four; 7] = [
    [3, 3, 3, 3],
    [0, 0, 0, 0],
    [usize::MAX; 4],
    [1 << 16; 4],
    [1 << 32, 1 << 32, 2, 2],
    [1 << 62, 2, 2, 16],
    [(1 << 61) + 2, 2, 2, 2],
];

const COUPLINGS: [f64; 12] = [
    6.0,
    0.0,
    -0.0,
    100.0,
    f64::from_bits(1),
    -1.0,
    f64::NAN,
    f64::INFINITY,
    f64::NEG_INFINITY,
    100.000_000_000_000_01,
    -f64::from_bits(1),
    -f64::NAN,
];
const LENGTHS: [usize; 8] = [1152, 1151, 1153, 0, 1, 72, LINKS - 1, LINKS];
const SITES: [usize; 7] = [0, 15, 16, 31, 32, 1 << 63, usize::MAX];
const ROOMS: [usize; 7] = [64, 63, 65, 0, 1, FOUND - 1, FOUND];
const DIRECTIONS: [usize; 6] = [0, 1, 3, 4, 1 << 32, usize::MAX];
const COORDINATES: [Four; 9] = [
    [0, 0, 0, 0],
    [1, 1, 1, 1],
    [2, 0, 0, 0],
    [4, 1, 1, 1],
    [0, 2, 0, 0],
    [0, 0, 2, 0],
    [0, 0, 0, 2],
    [0, 0, 0, usize::MAX],
    [usize::MAX; 4],
];

const PARITIES: [usize; 5] = [0, 1, 2, 1 << 32, usize::MAX];
const PASSES: [u64; 5] = [0, 7, 1 << 63, u64::MAX - 1, u64::MAX];
const SIZES: [usize; 4] = [0, 1, 5, usize::MAX];
const RHOS: [f64; 4] = [0.1, -0.0, 1e200, f64::NAN];
const AXES: [usize; 6] = [0, 1, 2, 3, 1 << 32, usize::MAX];
const SMEARED: [usize; 8] = [1152, 1151, 1153, 0, 16, 64, SECOND - 1, SECOND];
const DENSITIES: [usize; 8] = [16, 15, 17, 0, 31, 32, 1152, SECOND];

/// Half the sites is 8 under the first good extents and 16 under the second.
const JOBS: [Job; 24] = [
    job([0, 0, 0, 0, 0]),
    job([3, 1, 0, 0, u64::MAX]),
    job([1, 0, 5, 5, 1]),
    job([2, 1, 7, 3, 1 << 63]),
    job([0, 1, 8, 0, 3]),
    job([1, 1, 8, 8, 0]),
    job([2, 0, 9, 0, 0]),
    job([3, 0, 9, 9, 7]),
    job([0, 0, 16, 2, 0]),
    job([0, 0, 17, 0, 0]),
    job([0, 0, u64::MAX, 0, 0]),
    job([0, 0, 1 << 63, 1 << 63, 0]),
    job([0, 0, 0, 1, 0]),
    job([0, 0, 8, 9, 0]),
    job([1, 0, 16, 17, 0]),
    job([0, 0, 4, u64::MAX, 0]),
    job([4, 0, 0, 0, 0]),
    job([1 << 32, 0, 3, 1, 0]),
    job([u64::MAX, 0, 0, 0, 0]),
    job([0, 2, 0, 0, 0]),
    job([3, 1 << 32, 2, 2, 0]),
    job([0, u64::MAX, 8, 0, 0]),
    job([4, 2, 9, 10, u64::MAX]),
    job([u64::MAX; 5]),
];

/// From direction, parity, visited, stuck, pass.
const fn job([direction, parity, visited, stuck, pass]: [u64; 5]) -> Job {
    Job {
        direction,
        parity,
        visited,
        stuck,
        pass,
    }
}

/// A row's example from the document: the part that it spoils. A call that takes the part is refused
/// with the row's number.
type Example = (u32, Part, fn(&mut Arguments));

const EXAMPLES: [Example; 18] = [
    (1, Part::Extents, |a| a.ext = [3, 2, 2, 2]),
    (1, Part::Extents, |a| a.ext = [2, 2, 2, 18]),
    (2, Part::Coupling, |a| a.coupling = -1.0),
    (3, Part::Links, |a| a.links = &a.links[..1151]),
    (3, Part::Smeared, |a| a.second = &a.second[..1151]),
    (3, Part::Density, |a| a.second = &a.second[..15]),
    (4, Part::Site, |a| a.site = 16),
    (4, Part::Coordinates, |a| a.at = [0, 2, 0, 0]),
    (5, Part::Direction, |a| a.mu = 4),
    (5, Part::Other, |a| (a.mu, a.nu) = (1, 1)),
    (5, Part::Axis, |a| a.axis = 3),
    (6, Part::Parity, |a| a.parity = 2),
    (7, Part::Pass, |a| a.pass = u64::MAX),
    (8, Part::Job, |a| a.job.visited = 9),
    (8, Part::Job, |a| (a.job.visited, a.job.stuck) = (3, 4)),
    (8, Part::Job, |a| a.job.direction = 4),
    (8, Part::Job, |a| a.job.parity = 2),
    (12, Part::Room, |a| a.found = &a.found[..63]),
];

/// The calls that row 10 can refuse: those that answer or store numbers of the links.
const ANSWER_NUMBERS: [&str; 16] = [
    "jj_plaquette",
    "jj_staple",
    "jj_average_plaquette",
    "jj_action",
    "jj_polyakov_loop",
    "jj_stout_link",
    "jj_stout_step",
    "jj_clover_leaves",
    "jj_field_strength_at",
    "jj_action_density",
    "jj_topological_charge_density",
    "jj_electric_sq",
    "jj_path",
    "jj_time_line",
    "jj_baryon_loop",
    "jj_add",
];

pub fn compare(tally: &mut Tally) {
    for name in ["group", "damaged", "nan"] {
        let mut bench = Bench::new(name);
        for call in &CALLS {
            bench.examples(tally, call);
            situations::compare(tally, &bench.grounds[0], call, &bench.padded);
            bench.crossed(tally, call);
        }
    }
}

/// One list under both good extents.
struct Bench {
    kind: &'static str,
    grounds: [Ground; 2],
    padded: Padded,
}

impl Bench {
    fn new(kind: &'static str) -> Self {
        let number = kinds::number_of(kind);
        let links = kinds::links(&KINDS[number], GOOD[1], 1);
        let lists = Lists::new(links, vec![u32::MAX; FOUND])
            .and_steps(baryon::steps())
            .and_flux(vec![BEFORE; SECOND], vec![BEFORE; baryon::GRID]);
        let label = [number as u64, 1];
        Self {
            kind,
            padded: lists.padded(),
            grounds: GOOD.map(|ext| Ground::new(label, ext, lists.clone())),
        }
    }

    /// With the numbers written here, and not by the rows.
    fn examples(&self, tally: &mut Tally, call: &Call) {
        let (ground, padded) = (&self.grounds[0], &self.padded);
        let good = good(call, padded);
        for (row, part, spoil) in EXAMPLES {
            if call.takes.contains(&part) {
                let mut a = good;
                spoil(&mut a);
                ground.hold(tally, call, &a, padded, call.refused(row, &a));
            }
        }
        if self.kind == "nan" && ANSWER_NUMBERS.contains(&call.name) {
            ground.hold(tally, call, &good, padded, call.refused(10, &good));
        }
        if self.kind == "nan" && call.name == OVERRELAX_LINK.name {
            ground.hold(tally, call, &good, padded, call.refused(9, &good));
        }
    }

    /// Everything that the call takes with everything else, or every two.
    fn crossed(&mut self, tally: &mut Tally, call: &Call) {
        if call.takes.contains(&Part::Sums) {
            for (number, &part) in call.takes.iter().enumerate() {
                for &other in &call.takes[..number] {
                    self.each(tally, call, &[part, other]);
                }
            }
        } else {
            self.each(tally, call, call.takes);
        }
    }

    /// All choices for these parts.
    fn each(&mut self, tally: &mut Tally, call: &Call, parts: &[Part]) {
        let padded = &self.padded;
        let all = parts.iter().fold(vec![good(call, padded)], |all, &part| {
            all.iter().flat_map(|a| variants(part, a, padded)).collect()
        });
        for a in all {
            let second = a.ext == GOOD[1];
            self.grounds[usize::from(second)].check(tally, call, &a, padded);
        }
    }
}

/// Arguments that are good under the first extents.
fn good<'a>(call: &Call, padded: &'a Padded) -> Arguments<'a> {
    let a = baryon::two_densities(padded.arguments(GOOD[0], 1152, 64));
    baryon::fitted(a, call, padded)
}

/// The arguments with each choice for one part.
fn variants<'a>(part: Part, a: &Arguments<'a>, padded: &'a Padded) -> Vec<Arguments<'a>> {
    match part {
        Part::Extents => extents().map(|ext| Arguments { ext, ..*a }).collect(),
        Part::Coupling => of(COUPLINGS, |coupling| Arguments { coupling, ..*a }),
        Part::Links => of(LENGTHS, |n| Arguments {
            links: &padded.links[..n],
            ..*a
        }),
        Part::Site => of(SITES, |site| Arguments { site, ..*a }),
        Part::Coordinates => of(COORDINATES, |at| Arguments { at, ..*a }),
        Part::Direction => of(DIRECTIONS, |mu| Arguments { mu, ..*a }),
        Part::Other => of(DIRECTIONS, |nu| Arguments { nu, ..*a }),
        Part::Parity => of(PARITIES, |parity| Arguments { parity, ..*a }),
        Part::Pass => of(PASSES, |pass| Arguments { pass, ..*a }),
        Part::Job => of(JOBS, |job| Arguments { job, ..*a }),
        Part::Size => of(SIZES, |size| Arguments { size, ..*a }),
        Part::Room => of(ROOMS, |n| Arguments {
            found: &padded.found[..n],
            ..*a
        }),
        Part::Rho => of(RHOS, |rho| Arguments { rho, ..*a }),
        Part::Axis => of(AXES, |axis| Arguments { axis, ..*a }),
        Part::Smeared => of(SMEARED, |n| Arguments {
            second: &padded.second[..n],
            ..*a
        }),
        Part::Density => of(DENSITIES, |n| Arguments {
            second: &padded.second[..n],
            ..*a
        }),
        _ => baryon::variants(part, a, padded),
    }
}

fn of<'a, T, const N: usize>(
    choices: [T; N],
    make: impl Fn(T) -> Arguments<'a>,
) -> Vec<Arguments<'a>> {
    choices.into_iter().map(make).collect()
}

fn extents() -> impl Iterator<Item = Four> {
    GOOD.into_iter().chain(spoilt(GOOD[0])).chain(BAD)
}

/// With each bad side in each place.
fn spoilt<const N: usize>(good: [usize; N]) -> impl Iterator<Item = [usize; N]> {
    (0..N).flat_map(move |place| {
        BAD_SIDES.map(|side| {
            let mut ext = good;
            ext[place] = side;
            ext
        })
    })
}
