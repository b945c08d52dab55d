//! The unchanged Rust: the copies that build.rs made.

#[allow(dead_code, clippy::all)]
pub mod su3 {
    include!(concat!(env!("OUT_DIR"), "/su3.rs"));
}
