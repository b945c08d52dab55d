//! Brings the reference files into the build and links the static library of `export`.

use std::env;
use std::fs;
use std::path::{Path, PathBuf};

/// The folder of the Rust files, as `run` found it.
const RUST: &str = "JAMJUNE_RUST";

/// The reference files in use, and what is appended to a file's copy to reach what it keeps private.
const MODULES: [(&str, &str); 5] = [
    ("rng", include_str!("access/rng.rs")),
    ("mat", ""),
    ("lattice", include_str!("access/lattice.rs")),
    ("fields", ""),
    ("baryon", include_str!("access/baryon.rs")),
];

fn main() {
    let out = folder("OUT_DIR");
    println!("cargo::rerun-if-env-changed={RUST}");
    bring_reference(&folder(RUST).join("crates/phyz-qft/src/su3"), &out);
    link_library(&folder("CARGO_MANIFEST_DIR").join("../crates/export/out"));
}

fn folder(variable: &str) -> PathBuf {
    env::var_os(variable)
        .unwrap_or_else(|| panic!("{variable} is not set: build through compare/run"))
        .into()
}

/// Copies each file and writes `su3.rs`, which declares them side by side: they name each other by
/// `super::`.
fn bring_reference(from: &Path, to: &Path) {
    let mut declared = String::new();
    for (name, access) in MODULES {
        let file = from.join(name).with_extension("rs");
        println!("cargo::rerun-if-changed={}", file.display());
        let text = fs::read_to_string(&file).unwrap_or_else(|e| panic!("{}: {e}", file.display()));
        write(
            &to.join(name).with_extension("rs"),
            &format!("{text}\n{access}"),
        );
        declared += &format!("#[path = \"{name}.rs\"]\npub mod {name};\n");
    }
    write(&to.join("su3.rs"), &declared);
    // Their feature for threads, which stays off.
    println!("cargo::rustc-check-cfg=cfg(feature, values(\"parallel\"))");
}

fn write(file: &Path, text: &str) {
    fs::write(file, text).unwrap_or_else(|e| panic!("{}: {e}", file.display()));
}

fn link_library(from: &Path) {
    println!(
        "cargo::rerun-if-changed={}",
        from.join("libexport.a").display()
    );
    println!("cargo::rustc-link-search=native={}", from.display());
    println!("cargo::rustc-link-lib=static=export");
}
