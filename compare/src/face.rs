//! The C face of `export`, as its header declares it. All unsafe code of this program is here and in
//! the files below.
//!
//! A fixed array of the header is a reference to one, and a call that takes only numbers and such
//! references leaves its caller nothing to keep: it is declared `safe`. A list, which is a pointer
//! and a length, wants a wrapper over a slice.

#![allow(unsafe_code)]

mod baryon;
mod fields;
mod lattice;
mod mat;
mod sweep;

pub use baryon::*;
pub use fields::*;
pub use lattice::*;
pub use mat::*;
pub use sweep::*;

/// The four words of a generator.
pub type State = [u64; 4];

// SAFETY: names and types are the header's, and no call keeps a pointer.
unsafe extern "C" {
    pub safe fn jj_wrapping_mul(a: u64, b: u64) -> u64;
    pub safe fn jj_rotate_left(x: u64, k: u32) -> u64;
    pub safe fn jj_sqrt(x: f64) -> f64;
    pub safe fn jj_stream(seed: u64, pass: u64, mu: u64, site: u64, out_state: &mut State);
    pub safe fn jj_next_u64(state: &mut State) -> u64;
    pub safe fn jj_uniform(state: &mut State) -> f64;
    pub safe fn jj_uniform_of(raw: u64) -> f64;
}

/// What a call's room for numbers holds before the call.
trait Room: Copy {
    /// Not clear, and no number that an answer is likely to have: one left unwritten shows.
    const BEFORE: Self;
}

impl Room for f64 {
    const BEFORE: Self = f64::from_bits(0x5555_5555_5555_5555);
}

impl Room for u64 {
    const BEFORE: Self = 0x5555_5555_5555_5555;
}

impl Room for usize {
    const BEFORE: Self = u64::BEFORE as usize;
}

impl Room for u32 {
    const BEFORE: Self = 0x5555_5555;
}

/// What a call returns, and what it wrote to its room.
fn with_room<R, T: Room, const N: usize>(call: impl FnOnce(&mut [T; N]) -> R) -> (R, [T; N]) {
    let mut room = [T::BEFORE; N];
    (call(&mut room), room)
}

/// `jj_stream` with its answer by value.
pub fn stream([seed, pass, mu, site]: [u64; 4]) -> State {
    with_room(|state| jj_stream(seed, pass, mu, site, state)).1
}

/// `jj_next_u64` on a state by value: the word and the state after it.
pub fn next_u64(mut state: State) -> (u64, State) {
    (jj_next_u64(&mut state), state)
}

/// `jj_uniform` on a state by value: the number and the state after it.
pub fn uniform(mut state: State) -> (f64, State) {
    (jj_uniform(&mut state), state)
}
