//! Fields with one number, or all, at an edge: of magnitude 2, up to which no answer but a smeared
//! link's can go out of range, of the next one, of some whose eighth powers are near the end of the
//! range or past it, infinite, or NaN.

use super::lists::{self, Actions, Field};
use crate::face::Four;
use crate::inputs::Source;
use crate::kinds::{self, KINDS};
use crate::rows;
use crate::tally::Tally;

const EXTENTS: [Four; 3] = [[2, 2, 2, 2], [4, 2, 2, 2], [2, 4, 2, 6]];

const EDGES: [f64; 25] = [
    2.0,
    -2.0,
    2.0000000000000004,
    -2.0000000000000004,
    1.9999999999999998,
    3.0,
    -4.0,
    1e10,
    1e19,
    1e25,
    -1e38,
    1e39,
    1e51,
    1e77,
    -1e77,
    1e102,
    1e150,
    1e154,
    -1e200,
    f64::MAX,
    -0.0,
    f64::from_bits(1),
    f64::INFINITY,
    f64::NEG_INFINITY,
    f64::NAN,
];

/// Beside the first and the last number of a list and the first of each direction.
const PLACES: u64 = 4;

/// One of these, with each number times the factor.
const BASES: [(&str, f64); 4] = [("cold", 1.0), ("group", 1.0), ("raw", 2.0), ("units", 2.0)];

pub fn compare(tally: &mut Tally, source: &mut Source, actions: &mut Actions) {
    let mut hidden = 0;
    for ext in EXTENTS {
        for (name, factor) in BASES {
            let number = kinds::number_of(name);
            let base: Vec<f64> = kinds::links(&KINDS[number], ext, 0)
                .iter()
                .map(|x| x * factor)
                .collect();
            for edge in EDGES {
                for place in places(source, base.len()) {
                    let mut links = base.clone();
                    links[place] = edge;
                    let label = [number as u64, edge.to_bits()];
                    let field = Field::new(label, ext, links);
                    check(tally, source, &field, actions);
                    hidden += u32::from(edge.is_nan() && accepts(&field));
                }
            }
        }
        for edge in EDGES {
            let numbers = 72 * ext.iter().product::<usize>();
            let links = (0..numbers).map(|_| edge.copysign(source.ordinary()));
            let label = [u64::MAX, edge.to_bits()];
            let field = Field::new(label, ext, links.collect());
            check(tally, source, &field, actions);
        }
    }
    assert!(hidden > 0, "no list was filled beside a NaN");
}

fn check(tally: &mut Tally, source: &mut Source, field: &Field, actions: &mut Actions) {
    field.densities(tally, actions);
    for rho in [0.1, source.rho()] {
        field.step(tally, rho);
    }
}

/// Whether a density can be stored, as that of an axis whose plane the NaN is not in.
fn accepts(field: &Field) -> bool {
    let all = lists::of(&field.lattice().field_strength());
    all.iter().any(|numbers| !rows::not_finite(numbers))
}

fn places(source: &mut Source, numbers: usize) -> Vec<usize> {
    let firsts = (0..4).map(|mu| mu * numbers / 4);
    let any = (0..PLACES).map(|_| source.below(numbers as u64) as usize);
    firsts.chain([numbers - 1]).chain(any).collect()
}
