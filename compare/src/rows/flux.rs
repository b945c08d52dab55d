//! The rows of steps, offsets and accumulators.

use super::{Arguments, Part};
use crate::face::{Accumulator, Offset, Offsets, Sums};

/// An accumulator. A call that takes none has its offsets and its time length from here too.
#[derive(Clone, Copy)]
pub struct Flux {
    /// The extents of its grid.
    pub n: [u64; 3],
    pub offsets: Offsets,
    pub length: u64,
    pub count: u64,
    pub samples: u64,
    pub sums: Sums,
}

impl Flux {
    /// As the header has it.
    pub fn arrays(&self) -> Accumulator {
        let [nx, ny, nz] = self.n;
        Accumulator {
            counts: [nx, ny, nz, self.length, self.count, self.samples],
            offsets: self.offsets,
            sums: self.sums,
        }
    }

    /// Does not wrap where row 1 does not hold.
    pub fn cells(&self) -> usize {
        self.n.iter().product::<u64>() as usize
    }

    pub fn quarks(&self) -> [Offset; 3] {
        std::array::from_fn(|quark| std::array::from_fn(|axis| self.offsets[3 * quark + axis]))
    }

    /// Mean loop times mean density, where the count has that density.
    fn product(&self, number: u32) -> f64 {
        let samples = self.samples as f64;
        let [w, s @ ..] = self.sums;
        (w / samples) * (s[number as usize] / samples)
    }
}

/// Lists of densities, grid, scratch or cells of wrong length: by the call's count of densities, and
/// by the accumulator's where the call has none. As whole numbers, which never wrap.
pub fn lengths(parts: &[Part], a: &Arguments) -> bool {
    let called = parts.contains(&Part::Count);
    let count = u128::from(if called { a.count.into() } else { a.flux.count });
    let [sites, cells] = [a.sites(), a.flux.cells()].map(|n| n as u128);
    let lists = [
        (Part::Densities, a.second, count * sites),
        (Part::Grid, a.grid, count * cells),
        (Part::Scratch, a.scratch, 2 * count * cells),
        (Part::Correlation, a.second, cells),
    ];
    let wrong =
        |(part, list, due): &(Part, &[_], u128)| parts.contains(part) && list.len() as u128 != *due;
    lists.iter().any(wrong)
}

/// A step's axis above 3, more than 96 steps, an offset not from -32 to 32, a time length above 64.
pub fn paths(parts: &[Part], a: &Arguments) -> bool {
    let far = |offsets: &[i32]| offsets.iter().any(|c| !(-32..=32).contains(c));
    parts.iter().any(|part| match part {
        Part::Offset => far(&a.offset()),
        Part::Offsets => far(&a.flux.offsets),
        Part::Length => a.flux.length > 64,
        Part::Steps => a.steps.len() > 96 || a.steps.iter().any(|step| step.get() / 2 > 3),
        _ => false,
    })
}

/// A count of densities that is 0, above 4 or unlike the accumulator's, a density's number not below
/// it, another grid than the field's, or an addition to the last number of samples.
pub fn densities(parts: &[Part], a: &Arguments) -> bool {
    let called = parts.contains(&Part::Count);
    let field = parts.contains(&Part::Extents);
    let bad = |count: u64| !(1..=4).contains(&count);
    parts.iter().any(|part| match part {
        Part::Count => bad(a.count.into()),
        Part::Held if called => a.flux.count != a.count.into(),
        Part::Held => bad(a.flux.count),
        Part::Number => u64::from(a.number) >= a.flux.count,
        Part::Cells if field => a.ext[1..].iter().zip(a.flux.n).any(|(&n, m)| n as u64 != m),
        Part::Samples => a.flux.samples == u64::MAX,
        _ => false,
    })
}

/// Means of no samples, or a correlation whose mean loop times mean density is zero.
pub fn means(parts: &[Part], a: &Arguments) -> bool {
    let zero = || parts.contains(&Part::Number) && a.flux.product(a.number) == 0.0;
    parts.contains(&Part::Asked) && (a.flux.samples == 0 || zero())
}
