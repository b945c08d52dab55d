//! Accumulators with any sums and samples, and grids of any numbers: those that no call hands out too.

use crate::calls::{ADD, Added, CORRELATION, MEAN_LOOP};
use crate::face::Four;
use crate::ground::{Ground, Lists, Padded};
use crate::inputs::Source;
use crate::kinds::{self, KINDS};
use crate::rows::{self, Arguments, Flux};
use crate::tally::{Tally, bits};
use std::fmt;

const EXTENTS: [Four; 3] = [[2, 2, 2, 2], [4, 2, 2, 2], [2, 4, 2, 2]];
const ON: [&str; 8] = [
    "cold",
    "group",
    "raw",
    "damaged",
    "units",
    "tiny",
    "huge",
    "signed zeros",
];
/// On each field.
const ACCUMULATORS: usize = 100;

const ENDS: [f64; 5] = [
    f64::NAN,
    f64::INFINITY,
    f64::NEG_INFINITY,
    f64::MAX,
    -f64::MAX,
];

/// None, few, around the last that every count's f64 is exact for, and up to the end.
const SAMPLES: [u64; 24] = [
    0,
    1,
    2,
    16,
    48,
    1 << 32,
    (1 << 53) - 16,
    (1 << 53) - 1,
    1 << 53,
    (1 << 53) + 1,
    (1 << 53) + 3,
    (1 << 53) + 16,
    (1 << 57) - 32,
    1 << 57,
    (1 << 57) + 16,
    (1 << 57) + 48,
    (1 << 60) + 16 * 9,
    1 << 63,
    (1 << 63) + 1024,
    (1 << 63) + 1040,
    u64::MAX - 16,
    u64::MAX - 15,
    u64::MAX - 1,
    u64::MAX,
];

/// Up to here the Rust's own sum is the nearest f64.
const EXACT: u64 = 1 << 57;

/// The named differences from the Rust's own sums, in additions that were accepted.
#[derive(Default)]
struct Own {
    /// With samples that the Rust's can be, past 2^57.
    past: u64,
    /// The f64 nearest to the samples is not the Rust's own sum.
    samples: u64,
    /// The sum of a density is +0, and the Rust's own is -0.
    zeros: u64,
}

impl fmt::Display for Own {
    fn fmt(&self, f: &mut fmt::Formatter<'_>) -> fmt::Result {
        let Self {
            past,
            samples,
            zeros,
        } = self;
        write!(
            f,
            "of {past} additions past 2^57 samples {samples} have another count than the Rust's own \
             sum; {zeros} sums of a density are +0 and the Rust's own is -0"
        )
    }
}

pub fn compare(tally: &mut Tally, source: &mut Source) {
    let mut own = Own::default();
    for name in ON {
        let number = kinds::number_of(name);
        for ext in EXTENTS {
            let links = kinds::links(&KINDS[number], ext, 0);
            for _ in 0..ACCUMULATORS {
                let label = [number as u64, 0];
                accumulator(tally, source, &mut own, label, (ext, &links));
            }
        }
    }
    alone(tally, &mut own);
    println!("baryon: {own}");
}

/// One number alone at the end of the range or past it, in each place of sums, grid and densities.
fn alone(tally: &mut Tally, own: &mut Own) {
    let (ext, group) = (EXTENTS[1], kinds::number_of("group"));
    let links = kinds::links(&KINDS[group], ext, 0);
    let [sites, cells] = [32, 8];
    for end in ENDS {
        for place in 0..5 + 2 * (cells + sites) {
            let (mut sums, mut grid) = ([1.0; 5], vec![0.5; 2 * cells]);
            let mut densities = vec![0.25; 2 * sites];
            let mut all = sums.iter_mut().chain(&mut grid).chain(&mut densities);
            *all.nth(place).expect("a place") = end;
            let lists = Lists::new(links.clone(), vec![]).and_flux(densities, grid);
            let padded = lists.padded();
            let good = padded.adding(ext, 2);
            let flux = Flux { sums, ..good.flux };
            let mut ground = Ground::new([group as u64, 0], ext, lists);
            each_call(
                tally,
                own,
                &mut ground,
                &Arguments { flux, ..good },
                &padded,
            );
        }
    }
}

fn accumulator(
    tally: &mut Tally,
    source: &mut Source,
    own: &mut Own,
    label: [u64; 2],
    (ext, links): (Four, &[f64]),
) {
    let count = 1 + source.below(4) as usize;
    let sites = ext.iter().product::<usize>();
    let once_in = [2, 20, 400, 4000][source.below(4) as usize];
    // Once in eight nothing but -0.
    let number = match source.below(8) {
        0 => |_: &mut Source, _| -0.0,
        _ => Source::sometimes_hard,
    };
    let [densities, grid] =
        [sites, sites / ext[0]].map(|each| source.many(count * each, |s| number(s, once_in)));
    let lists = Lists::new(links.to_vec(), vec![]).and_flux(densities, grid);
    let padded = lists.padded();
    let good = padded.adding(ext, count as u32);
    let flux = Flux {
        offsets: source.quarks(),
        length: source.length(),
        samples: source.samples(),
        sums: std::array::from_fn(|_| number(source, once_in)),
        ..good.flux
    };
    let mut ground = Ground::new(label, ext, lists);
    each_call(
        tally,
        own,
        &mut ground,
        &Arguments { flux, ..good },
        &padded,
    );
}

fn each_call(
    tally: &mut Tally,
    own: &mut Own,
    ground: &mut Ground,
    a: &Arguments,
    padded: &Padded,
) {
    ground.check(tally, &ADD, a, padded);
    if rows::refusal(ADD.takes, a) == 0 {
        own.hold(tally, ground, a);
    }
    ground.check(tally, &MEAN_LOOP, a, padded);
    for number in 0..=a.count {
        let a = Arguments {
            number,
            second: &padded.second[..a.flux.cells()],
            ..*a
        };
        ground.check(tally, &CORRELATION, &a, padded);
    }
}

impl Own {
    /// The Rust's own samples and sums of densities, where they are meant to be equal.
    fn hold(&mut self, tally: &mut Tally, ground: &Ground, a: &Arguments) {
        let Some(Added { flux, own, .. }) = Added::new(a, &ground.lattice).accepted() else {
            return;
        };
        let inputs = ground.inputs(a);
        let [count, rust] = [flux.samples as f64, own.samples()].map(bits);
        // Sums of sites are multiples of 16.
        if a.flux.samples.is_multiple_of(16) && flux.samples <= EXACT {
            tally.check("samples, the Rust's own", &inputs, &[count], &[rust]);
        } else if a.flux.samples.is_multiple_of(16) {
            self.past += 1;
            self.samples += u64::from(count != rust);
        }
        for (sum, rust) in flux.sums[1..].iter().zip(own.sums().1) {
            // A zero of either sign is +0 after + 0.
            let [unsigned, due] = [sum, rust].map(|x| bits(x + 0.0));
            tally.check("sums, the Rust's own", &inputs, &[unsigned], &[due]);
            self.zeros += u64::from(bits(*sum) != bits(*rust));
        }
    }
}

impl Source {
    /// Listed, or of any number of digits, or halfway between two f64.
    fn samples(&mut self) -> u64 {
        match self.below(4) {
            0 => self.word() >> self.below(64),
            1 => (1 << 53 | self.word() >> 11 | 1) << self.below(11),
            _ => SAMPLES[self.below(SAMPLES.len() as u64) as usize],
        }
    }
}
