//! The two operations on words against those of `u64`.

use crate::face;
use crate::inputs::{Source, edge_words};
use crate::tally::Tally;

const RANDOM: usize = 1_000_000;

pub fn compare(tally: &mut Tally) {
    let mut source = Source::new(1);
    let edges = edge_words();
    products(tally, &mut source, &edges);
    rotations(tally, &mut source, &edges);
}

fn products(tally: &mut Tally, source: &mut Source, edges: &[u64]) {
    for &a in edges {
        for &b in edges {
            product(tally, a, b);
        }
        product(tally, a, source.word());
        product(tally, source.word(), a);
    }
    for _ in 0..RANDOM {
        product(tally, source.word(), source.word());
    }
}

fn product(tally: &mut Tally, a: u64, b: u64) {
    tally.check(
        "jj_wrapping_mul",
        &[a, b],
        &[face::jj_wrapping_mul(a, b)],
        &[a.wrapping_mul(b)],
    );
}

fn rotations(tally: &mut Tally, source: &mut Source, edges: &[u64]) {
    // Every count around two whole turns, then the edges of u32.
    let counts: Vec<u32> = (0..=130)
        .chain(edges.iter().filter_map(|&k| u32::try_from(k).ok()))
        .collect();
    for &x in edges {
        for &k in &counts {
            rotation(tally, x, k);
        }
    }
    for _ in 0..RANDOM {
        // The upper half: a count is any u32.
        rotation(tally, source.word(), (source.word() >> 32) as u32);
    }
}

fn rotation(tally: &mut Tally, x: u64, k: u32) {
    tally.check(
        "jj_rotate_left",
        &[x, k.into()],
        &[face::jj_rotate_left(x, k)],
        &[x.rotate_left(k)],
    );
}
