//! Kinds of field, each made from the reference's generator.
//!
//! Link number n of a field is the one of direction n / sites at site n mod sites. It is made by
//! itself, from the stream of the field's seed, its kind's pass, its direction and its site. All but
//! `haar` need no more than that stream, IEEE 754 and `reunitarize`.

use crate::face::{Four, Mat};
use crate::flat;
use crate::inputs;
use crate::reference::su3::lattice::random_su3;
use crate::reference::su3::mat::Su3;
use crate::reference::su3::rng::Rng;

pub struct Kind {
    pub name: &'static str,
    pass: u64,
    link: fn(&mut Rng, Place) -> Mat,
    /// Without draws one field has all that there is.
    pub draws: bool,
}

/// Where a link is.
#[derive(Clone, Copy)]
pub struct Place {
    seed: u64,
    number: usize,
    links: usize,
}

const fn kind(name: &'static str, pass: u64, link: fn(&mut Rng, Place) -> Mat) -> Kind {
    Kind {
        name,
        pass,
        link,
        draws: true,
    }
}

const fn fixed(name: &'static str, link: fn(&mut Rng, Place) -> Mat) -> Kind {
    Kind {
        name,
        pass: 0,
        link,
        draws: false,
    }
}

pub static KINDS: [Kind; 27] = [
    fixed("cold", |_, _| flat::numbers(&Su3::IDENTITY)),
    kind("raw", 0, |rng, _| raw(rng)),
    kind("group", 0, |rng, _| flat::numbers(&group(rng))),
    kind("smooth", 0, |rng, _| smooth(rng)),
    kind("damaged", 0, |rng, _| damaged(rng)),
    // Norms of products overflow here and there.
    kind("huge", 0, |rng, _| {
        scaled(rng, 1.25 * inputs::power_of_two(127))
    }),
    kind("units", 2, |rng, _| units(rng)),
    kind("haar", 1, |rng, _| flat::numbers(&random_su3(rng))),
    // At the upper end of the range or past it: sums of plaquettes, plaquettes, staples.
    kind("brink of sums", 0, |rng, _| {
        scaled(rng, 1.5 * inputs::power_of_two(254))
    }),
    kind("brink of four", 0, |rng, _| {
        scaled(rng, 1.4 * inputs::power_of_two(255))
    }),
    kind("brink of three", 0, |rng, _| {
        scaled(rng, 1.3 * inputs::power_of_two(340))
    }),
    // A product of four is subnormal.
    kind("tiny", 0, |rng, _| scaled(rng, inputs::power_of_two(-266))),
    kind("wide", 3, |rng, _| each(rng, |rng| wide(rng.next_u64()))),
    kind("patterns", 3, |rng, _| {
        each(rng, |rng| f64::from_bits(rng.next_u64()))
    }),
    kind("hard", 3, |rng, _| each(rng, |rng| sometimes_hard(rng, 8))),
    kind("rarely hard", 3, |rng, _| {
        each(rng, |rng| sometimes_hard(rng, 1000))
    }),
    kind("all hard", 3, |rng, _| {
        each(rng, |rng| inputs::hard(rng.next_u64()))
    }),
    kind("subnormal", 3, |rng, _| {
        each(rng, |rng| subnormal(rng.next_u64()))
    }),
    kind("edges", 3, |rng, _| each(rng, |rng| edge(rng.next_u64()))),
    kind("imaginary", 0, |rng, _| times_i(flat::numbers(&group(rng)))),
    kind("last unsound", 0, last_unsound),
    kind("one unsound", 0, one_unsound),
    kind("signed zeros", 2, |rng, _| {
        each(rng, |rng| 0.0f64.copysign(unit(rng.next_u64())))
    }),
    fixed("zeros", |_, _| [0.0; 18]),
    fixed("nan", |_, _| [f64::NAN; 18]),
    // The norms of an update are near its bound: the first, the second, the third or none is short.
    kind("brink of stuck", 0, |rng, _| scaled(rng, 7.5e-4)),
    kind("at the bound", 4, at_bound),
];

/// The first seven: those of the sample.
pub fn sampled() -> &'static [Kind] {
    &KINDS[..7]
}

/// The number of a kind, which must be there.
pub fn number_of(name: &str) -> usize {
    let number = KINDS.iter().position(|kind| kind.name == name);
    number.unwrap_or_else(|| panic!("no kind is named {name}"))
}

/// The links of a field: one list, direction first, then site.
pub fn links(kind: &Kind, ext: Four, seed: u64) -> Vec<f64> {
    let sites: usize = ext.iter().product();
    let links = 4 * sites;
    let each = (0..links).flat_map(|number| {
        let mut rng = Rng::stream(seed, kind.pass, number / sites, number % sites);
        let place = Place {
            seed,
            number,
            links,
        };
        (kind.link)(&mut rng, place)
    });
    each.collect()
}

/// Eighteen numbers in the list's order.
fn each(rng: &mut Rng, mut number: impl FnMut(&mut Rng) -> f64) -> Mat {
    std::array::from_fn(|_| number(rng))
}

/// 2u - 1 for a uniform u each.
pub fn raw(rng: &mut Rng) -> Mat {
    each(rng, |rng| 2.0 * rng.uniform() - 1.0)
}

/// On the group to rounding.
fn group(rng: &mut Rng) -> Su3 {
    let mut link = flat::matrix(&raw(rng));
    link.reunitarize();
    link
}

/// Near the identity: a tenth of a raw matrix is added to it.
fn smooth(rng: &mut Rng) -> Mat {
    let mut link = Su3::IDENTITY + flat::matrix(&raw(rng)).scale(0.1);
    link.reunitarize();
    flat::numbers(&link)
}

fn scaled(rng: &mut Rng, factor: f64) -> Mat {
    raw(rng).map(|x| x * factor)
}

/// Of the group, but one link in sixteen is spoilt: one more draw, whose top four bits are then 0,
/// decides that, and the next one how and where.
fn damaged(rng: &mut Rng) -> Mat {
    let mut link = flat::numbers(&group(rng));
    if rng.next_u64() >> 60 != 0 {
        return link;
    }
    let draw = rng.next_u64();
    let place = (draw >> 8) as usize % 18;
    match draw >> 61 {
        0 => link = [0.0; 18],
        1 => link[place] = f64::NAN,
        2 => link[place] = f64::INFINITY,
        3 => link[place] = 1e200,
        4 => link[place] = f64::from_bits(1),
        5 => link = link.map(|x| x * 1e-13),
        6 => link[place] = -0.0,
        _ => link = link.map(|x| x * 1e160),
    }
    link
}

pub fn units(rng: &mut Rng) -> Mat {
    each(rng, |rng| unit(rng.next_u64()))
}

/// The draw's top two bits choose.
fn unit(draw: u64) -> f64 {
    [0.0, -0.0, 1.0, -1.0][(draw >> 62) as usize]
}

/// Of either sign and any digits, with exponents such that a product of four may be anything.
fn wide(draw: u64) -> f64 {
    let exponent = (draw >> 52) as i32 % 546 - 280;
    let digits = 1.0 + (draw & 0xffff_ffff) as f64 / (1u64 << 32) as f64;
    (inputs::power_of_two(exponent) * digits).copysign(unit(draw << 32))
}

fn sometimes_hard(rng: &mut Rng, once_in: u64) -> f64 {
    let draw = rng.next_u64();
    if draw.is_multiple_of(once_in) {
        inputs::hard(rng.next_u64())
    } else {
        2.0 * rng.uniform() - 1.0
    }
}

fn subnormal(draw: u64) -> f64 {
    f64::from_bits(draw & (1 << 63 | ((1 << 52) - 1)))
}

/// 1 and -1, the numbers inside them, and rarely those outside.
fn edge(draw: u64) -> f64 {
    let step = match draw % 64 {
        0 => 1,
        1..=20 => -1,
        _ => 0,
    };
    let size = 1f64.to_bits().wrapping_add_signed(step);
    f64::from_bits(size | draw & 1 << 63)
}

fn times_i(link: Mat) -> Mat {
    std::array::from_fn(|k| {
        if k % 2 == 0 {
            -link[k + 1]
        } else {
            link[k - 1]
        }
    })
}

/// Of the group, but the very last number is the first above 1.
fn last_unsound(rng: &mut Rng, place: Place) -> Mat {
    let mut link = flat::numbers(&group(rng));
    if place.number + 1 == place.links {
        link[17] = 1f64.next_up();
    }
    link
}

/// Cold, but one number, which the seed chooses.
fn one_unsound(_: &mut Rng, place: Place) -> Mat {
    let outside = [
        1f64.next_up(),
        (-1f64).next_down(),
        f64::NAN,
        f64::INFINITY,
        f64::NEG_INFINITY,
        -f64::MAX,
    ];
    let mut link = flat::numbers(&Su3::IDENTITY);
    let draw = Rng::stream(place.seed, 4, 0, 0).next_u64();
    if place.number == draw as usize % place.links {
        link[(draw >> 48) as usize % 18] = outside[(draw >> 40) as usize % 6];
    }
    link
}

/// Cold, but of direction 0 one link in eight, whose first, second or third norm in an update is within
/// a few steps of 1e-12 where the links around it are cold: their staple is six times the identity.
fn at_bound(rng: &mut Rng, place: Place) -> Mat {
    let mut link = flat::numbers(&Su3::IDENTITY);
    let draw = rng.next_u64();
    if 4 * place.number < place.links && draw >> 61 == 0 {
        let sixth = f64::from_bits((1e-12f64 / 6.0).to_bits() - 4 + draw % 9);
        match draw / 9 % 3 {
            0 => link = link.map(|x| x * sixth),
            1 => (link[5], link[16]) = (2.0 * sixth, -1.0),
            _ => (link[0], link[11], link[16]) = (3.0, 2.0 * sixth, -1.0),
        }
    }
    link
}
