//! The calls that answer matrices, at every site and in every plane, or at some where there are many.

use super::RHOS;
use crate::calls::{CLOVER_LEAVES, FIELD_STRENGTH_AT, STOUT_LINK};
use crate::face::Four;
use crate::ground::{Ground, Lists};
use crate::inputs::Source;
use crate::rows::Arguments;
use crate::tally::Tally;

/// How many sites these are.
const SOME: usize = 40;

pub fn compare(tally: &mut Tally, source: &mut Source, label: [u64; 2], ext: Four, links: &[f64]) {
    let lists = Lists::new(links.to_vec(), vec![]);
    let padded = lists.padded();
    let good = padded.arguments(ext, links.len(), 0);
    let mut ground = Ground::new(label, ext, lists);
    for site in sites(source, good.sites()) {
        let a = Arguments { site, ..good };
        ground.check(tally, &FIELD_STRENGTH_AT, &a, &padded);
        for mu in 0..4 {
            // The listed ones come round, so that each site meets others.
            let listed = RHOS[(4 * site + mu) % RHOS.len()];
            for rho in [listed, source.rho()] {
                ground.check(tally, &STOUT_LINK, &Arguments { mu, rho, ..a }, &padded);
            }
            for nu in 0..4 {
                ground.check(tally, &CLOVER_LEAVES, &Arguments { mu, nu, ..a }, &padded);
            }
        }
    }
}

fn sites(source: &mut Source, all: usize) -> Vec<usize> {
    if all <= 128 {
        (0..all).collect()
    } else {
        let some = (2..SOME).map(|_| source.below(all as u64) as usize);
        [0, all - 1].into_iter().chain(some).collect()
    }
}
