//! The programs that print the cabinet's lines: the example for C's programmers, and the one in
//! Rattle. Each is run on every input, and its whole output held to the reference's text.

use super::{bytes, inputs, text};
use crate::tally::Tally;
use std::io::{Result, Write};
use std::path::Path;
use std::process::{Command, Stdio};
use std::thread::sleep;
use std::time::Duration;

/// The source of each, and the file from this program's folder.
const PROGRAMS: [(&str, &str); 2] = [
    ("examples/columns.c", "../target/compare/columns-c"),
    ("crates/columns", "../crates/columns/out/columns"),
];

/// Between pieces of an input: long enough for a program to read the first by itself.
const PAUSE: Duration = Duration::from_millis(20);

/// The longest input that a mismatch shows.
const SHOWN: usize = 8;

pub fn compare(tally: &mut Tally) {
    for (source, file) in PROGRAMS {
        let file = Path::new(env!("CARGO_MANIFEST_DIR")).join(file);
        if file.exists() {
            program(tally, source, &file);
        } else {
            println!("columns: {source} is not built: its output was not compared");
        }
    }
}

fn program(tally: &mut Tally, source: &'static str, file: &Path) {
    for input in inputs::listed().into_iter().chain(inputs::long()) {
        check(tally, source, file, &[&input]);
    }
    for pieces in inputs::pieces() {
        check(tally, source, file, &pieces);
    }
}

fn check(tally: &mut Tally, source: &'static str, file: &Path, pieces: &[&[u8]]) {
    let wrote = output(file, pieces).unwrap_or_else(|e| e.to_string());
    let shown = pieces.iter().map(|piece| shown(piece));
    let shown = shown.collect::<Vec<_>>().join(", later");
    tally.check_text(source, shown.trim_start(), &wrote, &text(&pieces.concat()));
}

fn shown(piece: &[u8]) -> String {
    if piece.len() <= SHOWN {
        bytes(piece)
    } else {
        format!("{} bytes", piece.len())
    }
}

/// What the program writes, and how it ends where that is not with status 0. Bytes that are no text
/// become characters that the reference's text does not have.
fn output(file: &Path, pieces: &[&[u8]]) -> Result<String> {
    let mut child = Command::new(file)
        .stdin(Stdio::piped())
        .stdout(Stdio::piped())
        .spawn()?;
    if let Some(mut stdin) = child.stdin.take() {
        for (number, piece) in pieces.iter().enumerate() {
            if number > 0 {
                sleep(PAUSE);
            }
            // It fails where the program has ended already: what it wrote by then is checked.
            let _ = stdin.write_all(piece);
        }
    }
    let output = child.wait_with_output()?;
    let wrote = String::from_utf8_lossy(&output.stdout);
    Ok(if output.status.success() {
        wrote.into_owned()
    } else {
        format!("{wrote}{}", output.status)
    })
}
