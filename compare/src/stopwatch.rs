//! Times two sides of one call against each other, or one side by itself.

use std::fmt;
use std::hint::black_box;
use std::time::{Duration, Instant};

/// A row takes this long, and this many rounds at least, but none begins after the longer time.
const SPAN: Duration = Duration::from_millis(600);
const ROUNDS: usize = 10;
const LONG: Duration = Duration::from_millis(1500);

/// A row of the table: nanoseconds a call on each side.
pub struct Row {
    call: &'static str,
    rattle: f64,
    rust: f64,
}

impl Row {
    /// The best round of each side, where `pass` makes `calls` calls of the function that it is
    /// given. Each round times both sides in turn, so that a change of clock hits both.
    pub fn race<F: Copy>(
        call: &'static str,
        calls: usize,
        sides: [F; 2],
        pass: impl FnMut(F) -> u64,
    ) -> Self {
        Self::race_after(call, calls, sides, || (), pass)
    }

    /// The same with something done before each pass, which is not timed.
    pub fn race_after<F: Copy>(
        call: &'static str,
        calls: usize,
        [rattle, rust]: [F; 2],
        mut before: impl FnMut(),
        mut pass: impl FnMut(F) -> u64,
    ) -> Self {
        let mut best = [Duration::MAX; 2];
        let start = Instant::now();
        let mut rounds = 0;
        while another(rounds, start.elapsed(), SPAN) {
            for (best, side) in best.iter_mut().zip([rattle, rust]) {
                before();
                *best = time(&mut pass, side).min(*best);
            }
            rounds += 1;
        }
        let [rattle, rust] = best.map(|t| t.as_nanos() as f64 / calls as f64);
        Self { call, rattle, rust }
    }
}

/// The best round in nanoseconds a call, where `pass` makes `calls` calls.
pub fn best(calls: usize, mut pass: impl FnMut() -> u64) -> f64 {
    let start = Instant::now();
    let mut best = Duration::MAX;
    let mut rounds = 0;
    while another(rounds, start.elapsed(), SPAN / 4) {
        best = time(&mut |()| pass(), ()).min(best);
        rounds += 1;
    }
    best.as_nanos() as f64 / calls as f64
}

fn another(rounds: usize, elapsed: Duration, span: Duration) -> bool {
    elapsed < span || (rounds < ROUNDS && elapsed < LONG)
}

/// One pass. It is not inlined and the function is hidden from it, so that both sides run through
/// the same machine code.
#[inline(never)]
fn time<F>(pass: &mut impl FnMut(F) -> u64, function: F) -> Duration {
    let start = Instant::now();
    black_box(pass(black_box(function)));
    start.elapsed()
}

impl fmt::Display for Row {
    fn fmt(&self, f: &mut fmt::Formatter<'_>) -> fmt::Result {
        let Self { call, rattle, rust } = self;
        let ratio = rattle / rust;
        write!(f, "| {call} | {rattle:.2} | {rust:.2} | {ratio:.2} |")
    }
}
