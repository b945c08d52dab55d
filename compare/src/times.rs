//! The table of times.
//!
//! On both sides each call is a real one: the static library's functions cannot be inlined, and on
//! the Rust's side stands an `#[inline(never)]` function, where a call is short an `extern "C"` one
//! through a pointer like the library's. So each row has the cost of a call in both columns.
//!
//! A row of two or three nanoseconds moves by a few cycles with the addresses that code comes to
//! stand at: its ratio says something only where it stays the same from build to build.

mod baryon;
mod fields;
mod lattice;
mod mat;
mod sweep;

/// The reference once more, for the calls on a whole field alone. Were its functions also used
/// elsewhere, the compiler would not inline them into these calls as it does in a program that has no
/// other use for them: a single call is timed with the comparison's reference.
#[allow(clippy::duplicate_mod)]
#[path = "reference.rs"]
mod reference;

#[allow(dead_code, clippy::duplicate_mod)]
#[path = "flat.rs"]
mod flat;

use crate::face::{self, State};
use crate::inputs::Source;
use crate::reference::su3::rng::Rng;
use crate::stopwatch::Row;

/// Calls of one pass: too many for the processor to learn the branches by heart.
const CALLS: usize = 1 << 16;

type Root = extern "C" fn(f64) -> f64;
type Product = extern "C" fn(u64, u64) -> u64;
type Stream = extern "C" fn(u64, u64, u64, u64, &mut State);
type Draw = extern "C" fn(&mut State) -> u64;
type Uniform = extern "C" fn(&mut State) -> f64;

pub fn print() {
    println!("| call | Rattle ns | Rust ns | ratio |");
    println!("|---|---:|---:|---:|");
    let mut source = Source::new(4);
    for row in [
        root_throughput("sqrt, normal, throughput", || source.normal(-1022..=1023)),
        root_latency(&mut source),
        root_throughput("sqrt, within 16 steps of 1, throughput", || {
            f64::from_bits(1f64.to_bits() - 16 + source.below(33))
        }),
        root_throughput("sqrt, subnormal, throughput", || source.subnormal()),
        product(&mut source),
        stream(&mut source),
        next_u64(&mut source),
        uniform(&mut source),
    ] {
        println!("{row}");
    }
    for row in mat::rows()
        .into_iter()
        .chain(lattice::rows())
        .chain(sweep::rows())
        .chain(fields::rows())
        .chain(baryon::rows())
    {
        println!("{row}");
    }
    println!();
    sweep::print_frames();
}

fn list<T>(make: impl FnMut() -> T) -> Vec<T> {
    std::iter::repeat_with(make).take(CALLS).collect()
}

/// Calls that do not wait for each other.
fn root_throughput(call: &'static str, make: impl FnMut() -> f64) -> Row {
    let numbers = list(make);
    Row::race::<Root>(call, CALLS, [face::jj_sqrt, rust_sqrt], |sqrt| {
        numbers.iter().fold(0, |sum, &x| sum ^ sqrt(x).to_bits())
    })
}

/// Each call waits for the one before, and for one product. The exponents are such that no product
/// leaves the normal numbers.
fn root_latency(source: &mut Source) -> Row {
    let factors = list(|| source.normal(-500..=500));
    Row::race::<Root>(
        "sqrt, normal, latency",
        CALLS,
        [face::jj_sqrt, rust_sqrt],
        |sqrt| factors.iter().fold(1.0, |y, &x| sqrt(y * x)).to_bits(),
    )
}

fn product(source: &mut Source) -> Row {
    let pairs = list(|| source.words());
    let sides = [face::jj_wrapping_mul, rust_wrapping_mul];
    Row::race::<Product>("wrapping_mul", CALLS, sides, |mul| {
        pairs.iter().fold(0, |sum, &[a, b]| sum ^ mul(a, b))
    })
}

fn stream(source: &mut Source) -> Row {
    let keys = list(|| source.words());
    Row::race::<Stream>("stream", CALLS, [face::jj_stream, rust_stream], |stream| {
        keys.iter().fold(0, |sum, &[seed, pass, mu, site]| {
            let mut state = [0; 4];
            stream(seed, pass, mu, site, &mut state);
            sum ^ state[0]
        })
    })
}

fn next_u64(source: &mut Source) -> Row {
    let start: State = source.words();
    Row::race::<Draw>(
        "next_u64",
        CALLS,
        [face::jj_next_u64, rust_next_u64],
        |draw| {
            let mut state = start;
            (0..CALLS).fold(0, |sum, _| sum ^ draw(&mut state))
        },
    )
}

fn uniform(source: &mut Source) -> Row {
    let start: State = source.words();
    Row::race::<Uniform>("uniform", CALLS, [face::jj_uniform, rust_uniform], |draw| {
        let mut state = start;
        (0..CALLS).fold(0, |sum, _| sum ^ draw(&mut state).to_bits())
    })
}

#[inline(never)]
extern "C" fn rust_sqrt(x: f64) -> f64 {
    x.sqrt()
}

#[inline(never)]
extern "C" fn rust_wrapping_mul(a: u64, b: u64) -> u64 {
    a.wrapping_mul(b)
}

#[inline(never)]
extern "C" fn rust_stream(seed: u64, pass: u64, mu: u64, site: u64, out_state: &mut State) {
    *out_state = Rng::stream(seed, pass, mu as usize, site as usize).state();
}

#[inline(never)]
extern "C" fn rust_next_u64(state: &mut State) -> u64 {
    let mut rng = Rng::of_state(*state);
    let value = rng.next_u64();
    *state = rng.state();
    value
}

#[inline(never)]
extern "C" fn rust_uniform(state: &mut State) -> f64 {
    let mut rng = Rng::of_state(*state);
    let value = rng.uniform();
    *state = rng.state();
    value
}
