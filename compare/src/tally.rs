//! What was compared and what differed.

use std::collections::BTreeMap;
use std::fmt;

/// How many mismatches of each call are printed.
const SHOWN: u64 = 5;

/// The pattern of a number, with one pattern for all NaNs. The test is on the pattern: which NaN an
/// operation gives is open to the compiler, so that it may drop `is_nan` and keep the one at hand.
pub fn bits(x: f64) -> u64 {
    let pattern = x.to_bits();
    let magnitude = pattern & (u64::MAX >> 1);
    if magnitude > f64::INFINITY.to_bits() {
        f64::NAN.to_bits()
    } else {
        pattern
    }
}

/// An answer as words.
pub type Words = Vec<u64>;

/// The patterns of numbers.
pub fn words(numbers: &[f64]) -> Words {
    numbers.iter().map(|&x| bits(x)).collect()
}

/// The answer of a call that can refuse: its refusal number, then its other numbers as words.
pub fn answer(refusal: u32, others: impl IntoIterator<Item = u64>) -> Words {
    [refusal.into()].into_iter().chain(others).collect()
}

/// A refusal with this number, whose others, so many, are 0 or +0.
pub fn refused(number: u32, others: usize) -> Words {
    answer(number, std::iter::repeat_n(0, others))
}

#[derive(Default)]
pub struct Tally {
    compared: u64,
    mismatches: BTreeMap<&'static str, u64>,
}

impl Tally {
    /// Holds one call's whole answer to the reference's, both as words. A mismatch is printed while
    /// the call has had few.
    pub fn check(&mut self, call: &'static str, inputs: &[u64], rattle: &[u64], rust: &[u64]) {
        self.compared += 1;
        if rattle != rust {
            self.mismatch(call, || {
                let [inputs, rattle, rust] = [inputs, rattle, rust].map(hex);
                format!("({inputs}): Rattle {rattle}, Rust {rust}")
            });
        }
    }

    /// Holds a stored line to the reference's of the same number; either may be missing.
    pub fn check_line(&mut self, number: usize, stored: Option<&str>, rust: Option<&str>) {
        self.compared += 1;
        if stored != rust {
            let [stored, rust] = [stored, rust].map(|line| line.unwrap_or("nothing"));
            self.mismatch("line", || {
                format!(" {number}: stored {stored}, Rust {rust}")
            });
        }
    }

    /// Holds what a program wrote for an input to the reference's text.
    pub fn check_text(&mut self, program: &'static str, input: &str, wrote: &str, rust: &str) {
        self.compared += 1;
        if wrote != rust {
            self.mismatch(program, || {
                format!(" ({input}): wrote {wrote:?}, Rust {rust:?}")
            });
        }
    }

    #[cold]
    fn mismatch(&mut self, what: &'static str, seen: impl FnOnce() -> String) {
        let count = self.mismatches.entry(what).or_default();
        *count += 1;
        if *count <= SHOWN {
            println!("mismatch: {what}{}", seen());
        } else if *count == SHOWN + 1 {
            println!("mismatch: {what}: further ones are counted only");
        }
    }

    pub fn mismatches(&self) -> u64 {
        self.mismatches.values().sum()
    }

    /// Adds another tally's counts to this one's.
    pub fn absorb(&mut self, other: Tally) {
        self.compared += other.compared;
        for (call, count) in other.mismatches {
            *self.mismatches.entry(call).or_default() += count;
        }
    }
}

impl fmt::Display for Tally {
    fn fmt(&self, f: &mut fmt::Formatter<'_>) -> fmt::Result {
        write!(
            f,
            "{} compared, {} mismatches",
            self.compared,
            self.mismatches()
        )
    }
}

fn hex(words: &[u64]) -> String {
    let each: Vec<String> = words.iter().map(|w| format!("{w:016x}")).collect();
    each.join(" ")
}
