//! The lines of complex numbers, which are the first ones:
//!
//!     complex constants HASH   ZERO, ONE, I
//!     complex CALL HASH        CALL is new, conj, norm_sqr, scale, add, sub, mul, neg
//!
//! over the answers to every four of sixteen numbers, the last of the four in their order first, then
//! the third. Two are the complex number a, two more b. `scale` takes b's real part; `new`, `conj`,
//! `norm_sqr` and `neg` take a alone.

use super::hash::Hash;
use crate::inputs::crossed;
use crate::mat::of_complex;
use crate::reference::su3::mat::C64;
use crate::tally::{Words, words};
use std::fmt::{Result, Write};

const NUMBERS: [f64; 16] = [
    0.0,
    -0.0,
    1.0,
    -1.0,
    0.1,
    -0.3,
    1e16,
    5e-324,                  // the first subnormal
    -2.225073858507201e-308, // the last one
    2.2250738585072014e-308, // the first normal number
    -1.5e-162,               // its square is subnormal
    1e200,                   // its square is too large
    -1.7976931348623157e308, // no finite number is lower
    f64::INFINITY,
    f64::NEG_INFINITY,
    f64::NAN,
];

type Call = (&'static str, fn(C64, C64) -> Words);

const CALLS: [Call; 8] = [
    ("new", |a, _| of_complex(C64::new(a.re, a.im))),
    ("conj", |a, _| of_complex(a.conj())),
    ("norm_sqr", |a, _| words(&[a.norm_sqr()])),
    ("scale", |a, b| of_complex(a.scale(b.re))),
    ("add", |a, b| of_complex(a + b)),
    ("sub", |a, b| of_complex(a - b)),
    ("mul", |a, b| of_complex(a * b)),
    ("neg", |a, _| of_complex(-a)),
];

pub fn lines(to: &mut String) -> Result {
    let constants = [C64::ZERO, C64::ONE, C64::I];
    let constants = constants.into_iter().flat_map(of_complex);
    writeln!(to, "complex constants {}", Hash::over(constants))?;
    let numbers = NUMBERS.map(f64::to_bits);
    for (name, call) in CALLS {
        let answers = crossed(&numbers).flat_map(|four| {
            let [ar, ai, br, bi] = four.map(f64::from_bits);
            call(C64 { re: ar, im: ai }, C64 { re: br, im: bi })
        });
        writeln!(to, "complex {name} {}", Hash::over(answers))?;
    }
    Ok(())
}
