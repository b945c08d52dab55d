//! The stored lines that programs without Rust are held to, against what the reference gives now.

use crate::columns;
use crate::sample;
use crate::tally::Tally;
use std::fs;
use std::path::Path;

pub fn replay(tally: &mut Tally) {
    hold(tally, "replay", &sample::lines());
}

pub fn columns_cases(tally: &mut Tally) {
    hold(tally, "columns_cases", &columns::listing());
}

/// Holds the program's stored output to the reference's, line by line.
fn hold(tally: &mut Tally, program: &str, now: &str) {
    let file = format!("../crates/{program}/stdout");
    let Ok(stored) = fs::read_to_string(Path::new(env!("CARGO_MANIFEST_DIR")).join(file)) else {
        println!("{program}: its stored output is missing: no line was compared");
        return;
    };
    let [stored, now] = [&stored, now].map(|text| text.lines().collect::<Vec<_>>());
    for number in 0..stored.len().max(now.len()) {
        let [stored, now] = [&stored, &now].map(|lines| lines.get(number).copied());
        tally.check_line(number + 1, stored, now);
    }
}
