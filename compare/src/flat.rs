//! The header's flat numbers and the reference's types, each from the other. The reference is the one
//! beside this module: the times have both a second time.

use super::reference::su3::lattice::Su3Lattice;
use super::reference::su3::mat::{C64, Su3};
use crate::face::{Block, Four, Mat};

pub fn matrix(numbers: &Mat) -> Su3 {
    let complex = |k: usize| C64::new(numbers[2 * k], numbers[2 * k + 1]);
    Su3 {
        m: std::array::from_fn(|i| std::array::from_fn(|j| complex(3 * i + j))),
    }
}

pub fn numbers(matrix: &Su3) -> Mat {
    std::array::from_fn(|k| {
        let complex = matrix.m[k / 6][k / 2 % 3];
        if k % 2 == 0 { complex.re } else { complex.im }
    })
}

pub fn block(numbers: &Block) -> [[C64; 2]; 2] {
    let complex = |k: usize| C64::new(numbers[2 * k], numbers[2 * k + 1]);
    std::array::from_fn(|i| std::array::from_fn(|j| complex(2 * i + j)))
}

pub fn block_numbers(block: &[[C64; 2]; 2]) -> Block {
    std::array::from_fn(|k| {
        let complex = block[k / 4][k / 2 % 2];
        if k % 2 == 0 { complex.re } else { complex.im }
    })
}

/// The reference's lattice with these links: direction first, then site.
pub fn lattice(ext: Four, links: &[f64]) -> Su3Lattice {
    let mut lattice = Su3Lattice::cold(ext, 0.0, 0);
    let (each, rest) = links.as_chunks();
    assert!(rest.is_empty() && each.len() == 4 * lattice.n_sites());
    let places = lattice.links.iter_mut().flatten();
    for (place, link) in places.zip(each) {
        *place = matrix(link);
    }
    lattice
}

/// A lattice's links as one list.
pub fn links(lattice: &Su3Lattice) -> Vec<f64> {
    lattice.links.iter().flatten().flat_map(numbers).collect()
}
