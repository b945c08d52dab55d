//! Fields of which one answer alone is out of range: the density of one site, or one smeared link.
//!
//! A field, or the size of a step, is made larger until some answer is not finite: halving finds two
//! neighbouring f64 of which the first leaves every answer finite and the second does not. The field
//! is then moved around the lattice, so that this answer stands at the first site, at the last one and
//! at others.

use super::lists::{self, Actions, Field};
use crate::calls;
use crate::face::Four;
use crate::flat;
use crate::inputs::{Source, power_of_two};
use crate::kinds::{self, KINDS};
use crate::reference::su3::lattice::Su3Lattice;
use crate::rows;
use crate::tally::Tally;

const EXTENTS: [Four; 4] = [[2, 2, 2, 2], [4, 2, 2, 2], [2, 4, 2, 6], [2, 6, 4, 2]];
/// For each of the five densities.
const SEEDS: u64 = 3;
/// For the steps, so that links of each direction are met.
const STEPS: u64 = 8;
/// Sites that an answer is moved to, beside the first and the last.
const MOVES: usize = 2;

pub fn compare(tally: &mut Tally, source: &mut Source, actions: &mut Actions) {
    // How often a list had one such number, and a direction one such link.
    let mut lists = [0; 5];
    let mut directions = [0; 4];
    for ext in EXTENTS {
        for seed in 0..SEEDS {
            for (list, met) in lists.iter_mut().enumerate() {
                *met += u32::from(densities(tally, source, actions, (ext, seed), list));
            }
        }
        for seed in 0..STEPS {
            let made: [Make; 2] = [
                |links, x| (links.to_vec(), x),
                |links, x| (times(links, x), 0.1),
            ];
            for make in made {
                if let Some(mu) = steps(tally, source, (ext, seed), make) {
                    directions[mu] += 1;
                }
            }
        }
    }
    assert!(!lists.contains(&0), "{lists:?}");
    assert!(!directions.contains(&0), "{directions:?}");
}

/// The links and the size of a step, from a field's and the number that goes to the brink.
type Make = fn(&[f64], f64) -> (Vec<f64>, f64);

/// Whether one number of this list alone was out of range.
fn densities(
    tally: &mut Tally,
    source: &mut Source,
    actions: &mut Actions,
    (ext, seed): (Four, u64),
    list: usize,
) -> bool {
    let (label, links) = field("raw", ext, seed);
    let numbers = |links: &[f64]| {
        let strength = flat::lattice(ext, links).field_strength();
        let mut all = lists::of(&strength).into_iter();
        all.nth(list).expect("one of five")
    };
    let [inside, outside] = brink(|x| !rows::not_finite(&numbers(&times(&links, x))));
    Field::new(label, ext, times(&links, inside)).densities(tally, actions);
    let links = times(&links, outside);
    let out = not_finite(&numbers(&links));
    for to in sites(source, ext) {
        let links = moved(ext, &links, out[0], to);
        assert!(out.len() > 1 || not_finite(&numbers(&links)) == [to]);
        Field::new(label, ext, links).densities(tally, actions);
    }
    out.len() == 1
}

/// The direction of the link that alone was out of range.
fn steps(
    tally: &mut Tally,
    source: &mut Source,
    (ext, seed): (Four, u64),
    make: Make,
) -> Option<usize> {
    let (label, links) = field("group", ext, seed);
    let all = ext.iter().product::<usize>();
    let smeared = |links: &[f64], rho| calls::smeared(&flat::lattice(ext, links), rho);
    let out = |links: &[f64], rho| {
        let mut out = not_finite(&smeared(links, rho));
        out.iter_mut().for_each(|number| *number /= 18);
        out.dedup();
        out
    };
    let [inside, outside] = brink(|x| {
        let (links, rho) = make(&links, x);
        !rows::not_finite(&smeared(&links, rho))
    });
    let (last, rho) = make(&links, inside);
    Field::new(label, ext, last).step(tally, rho);
    let (links, rho) = make(&links, outside);
    let found = out(&links, rho);
    let [mu, site] = [found[0] / all, found[0] % all];
    for to in sites(source, ext) {
        let links = moved(ext, &links, site, to);
        assert!(found.len() > 1 || out(&links, rho) == [mu * all + to]);
        Field::new(label, ext, links).step(tally, rho);
    }
    (found.len() == 1).then_some(mu)
}

fn field(kind: &str, ext: Four, seed: u64) -> ([u64; 2], Vec<f64>) {
    let number = kinds::number_of(kind);
    let links = kinds::links(&KINDS[number], ext, seed);
    ([number as u64, seed], links)
}

fn times(links: &[f64], factor: f64) -> Vec<f64> {
    links.iter().map(|x| x * factor).collect()
}

/// Two neighbours, the first good and the second not.
fn brink(good: impl Fn(f64) -> bool) -> [f64; 2] {
    let [mut low, mut high] = [1.0, power_of_two(1000)].map(f64::to_bits);
    assert!(good(f64::from_bits(low)) && !good(f64::from_bits(high)));
    while high - low > 1 {
        let middle = low.midpoint(high);
        if good(f64::from_bits(middle)) {
            low = middle;
        } else {
            high = middle;
        }
    }
    [low, high].map(f64::from_bits)
}

/// Their places.
fn not_finite(numbers: &[f64]) -> Vec<usize> {
    let places = numbers.iter().enumerate().filter(|(_, x)| !x.is_finite());
    places.map(|(place, _)| place).collect()
}

fn sites(source: &mut Source, ext: Four) -> Vec<usize> {
    let all = ext.iter().product::<usize>();
    let any = (0..MOVES).map(|_| source.below(all as u64) as usize);
    [0, all - 1].into_iter().chain(any).collect()
}

/// The field moved around the lattice, so that what was at one site is at another.
fn moved(ext: Four, links: &[f64], from: usize, to: usize) -> Vec<f64> {
    let lattice = Su3Lattice::cold(ext, 0.0, 0);
    let [from, to] = [from, to].map(|site| lattice.coords(site));
    let mut moved = links.to_vec();
    for (number, link) in links.chunks(18).enumerate() {
        let (mu, site) = (number / lattice.n_sites(), number % lattice.n_sites());
        let at = lattice.coords(site);
        let to = std::array::from_fn(|k| (at[k] + ext[k] - from[k] + to[k]) % ext[k]);
        let place = mu * lattice.n_sites() + lattice.index(to);
        moved[18 * place..][..18].copy_from_slice(link);
    }
    moved
}
