//! Compares each call of the static library with the unchanged Rust on the same inputs, bit by bit,
//! and then times both. The status is 1 where any answer differs.
//!
//! With the word `sample` it prints the reference's answers for a replay without Rust, with `columns`
//! what the cabinet prints by the reference, and nothing else.

#![deny(unsafe_code)]

mod baryon;
mod calls;
mod columns;
mod face;
mod fields;
mod flat;
mod generator;
mod geometry;
mod ground;
mod inputs;
mod kinds;
mod lattice;
mod mat;
mod reference;
mod refusals;
mod root;
mod rows;
mod sample;
mod stopwatch;
mod stored;
mod sweep;
mod tally;
mod times;
mod update;
mod words;

use std::panic::resume_unwind;
use std::process::ExitCode;
use std::thread;
use tally::Tally;

/// A group of calls: its name, and what compares all its calls.
type Group = (&'static str, fn(&mut Tally));

const GROUPS: [Group; 12] = [
    ("words", words::compare),
    ("root", root::compare),
    ("generator", generator::compare),
    ("matrices", mat::compare),
    ("geometry", geometry::compare),
    ("lattice", lattice::compare),
    ("sweep", sweep::compare),
    ("fields", fields::compare),
    ("baryon", baryon::compare),
    ("refusals", refusals::compare),
    ("replay", stored::replay),
    ("columns_cases", stored::columns_cases),
];

/// Programs that are handed their input in pieces, with a pause between, while nothing else runs.
const PROGRAMS: Group = ("columns", columns::compare);

fn main() -> ExitCode {
    match std::env::args().nth(1).as_deref() {
        None => compare(),
        Some("sample") => print(&sample::lines()),
        Some("columns") => print(&columns::listing()),
        Some(other) => {
            eprintln!("compare: {other}: the only words that I know are sample and columns");
            ExitCode::from(2)
        }
    }
}

fn print(text: &str) -> ExitCode {
    print!("{text}");
    ExitCode::SUCCESS
}

/// Compares all groups, side by side, then the programs, and prints each one's tally in this order.
fn tallies() -> Tally {
    let mut total = Tally::default();
    thread::scope(|scope| {
        let started = GROUPS.map(|group| (group.0, scope.spawn(move || tally(group))));
        for (name, group) in started {
            let tally = group.join().unwrap_or_else(|panic| resume_unwind(panic));
            println!("{name}: {tally}");
            total.absorb(tally);
        }
    });
    let programs = tally(PROGRAMS);
    println!("{}: {programs}", PROGRAMS.0);
    total.absorb(programs);
    total
}

fn tally((_, compare): Group) -> Tally {
    let mut tally = Tally::default();
    compare(&mut tally);
    tally
}

fn compare() -> ExitCode {
    let total = tallies();
    println!();
    times::print();
    println!();
    println!("{total}");
    if total.mismatches() == 0 {
        ExitCode::SUCCESS
    } else {
        ExitCode::FAILURE
    }
}
