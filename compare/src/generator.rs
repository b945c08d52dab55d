//! The generator against the reference's, its whole state after each call included.

use crate::face::{self, State};
use crate::inputs::{Source, crossed, edge_words};
use crate::reference::su3::rng::Rng;
use crate::tally::{Tally, bits};

/// Keys of any four words.
const RANDOM: usize = 800_000;
/// Keys as a sweep makes them: small seeds and passes, four directions, sites of a lattice.
const USUAL: usize = 400_000;
const STATES: usize = 200_000;
const RAW: usize = 1_000_000;

/// Words that are crossed over all four places of a key and of a state.
const EDGES: [u64; 11] = [
    0,
    1,
    2,
    3,
    (1 << 32) - 1,
    1 << 32,
    (1 << 32) + 1,
    (1 << 63) - 1,
    1 << 63,
    u64::MAX - 1,
    u64::MAX,
];

// The reference takes direction and site as usize: the same 64 bits.
const _: () = assert!(usize::BITS == u64::BITS);

pub fn compare(tally: &mut Tally) {
    let mut source = Source::new(3);
    for four in crossed(&EDGES) {
        from_key(tally, four);
        from_state(tally, four);
    }
    for _ in 0..RANDOM {
        from_key(tally, source.words());
    }
    for _ in 0..USUAL {
        let key = [1 << 16, 1 << 12, 4, 1 << 16].map(|n| source.below(n));
        from_key(tally, key);
    }
    for _ in 0..STATES {
        from_state(tally, source.words());
    }
    for raw in [2047, 2048].into_iter().chain(edge_words()) {
        uniform_of(tally, raw);
    }
    for _ in 0..RAW {
        uniform_of(tally, source.word());
    }
}

fn from_key(tally: &mut Tally, key: [u64; 4]) {
    let [seed, pass, mu, site] = key;
    let mut rng = Rng::stream(seed, pass, mu as usize, site as usize);
    tally.check("jj_stream", &key, &face::stream(key), &rng.state());
    draws(tally, &mut rng);
}

/// A state that no key need lead to.
fn from_state(tally: &mut Tally, state: State) {
    draws(tally, &mut Rng::of_state(state));
}

/// Draws from the state where the reference stands each time, so that each call is checked alone.
fn draws(tally: &mut Tally, rng: &mut Rng) {
    for _ in 0..3 {
        let before = rng.state();
        let (value, after) = face::next_u64(before);
        let rust = drawn(rng.next_u64(), rng.state());
        tally.check("jj_next_u64", &before, &drawn(value, after), &rust);
    }
    let before = rng.state();
    let (value, after) = face::uniform(before);
    let rust = drawn(bits(rng.uniform()), rng.state());
    tally.check("jj_uniform", &before, &drawn(bits(value), after), &rust);
}

fn drawn(value: u64, [a, b, c, d]: State) -> [u64; 5] {
    [value, a, b, c, d]
}

/// The reference has no such function: its `uniform` is asked at a state that draws `raw`.
fn uniform_of(tally: &mut Tally, raw: u64) {
    let rust = Rng::of_state([0, 0, 0, raw.rotate_right(23)]).uniform();
    tally.check(
        "jj_uniform_of",
        &[raw],
        &[bits(face::jj_uniform_of(raw))],
        &[bits(rust)],
    );
}
