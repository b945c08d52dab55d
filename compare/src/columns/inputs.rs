//! What the programs are fed.

use super::MOST_SITES;
use crate::geometry::crossed;

type Input = &'static [u8];

const EVEN: [usize; 8] = [2, 4, 6, 8, 10, 12, 14, 16];

/// Extents that row 1 passes: the fewest sites that are too many, and counts that are 0 in a byte or
/// in two.
const TOO_MANY_SITES: [Input; 5] = [
    &[4, 4, 4, 4],
    &[16, 2, 2, 4],
    &[10, 2, 2, 2],
    &[2, 4, 4, 4],
    &[16, 16, 16, 16],
];

/// Odd, too small or too large, at each place; with too many sites as well; the digits `2222`.
const ROW_1: [Input; 15] = [
    &[3, 2, 2, 2],
    &[0, 2, 2, 2],
    &[18, 2, 2, 2],
    &[2, 2, 2, 17],
    &[255, 255, 255, 255],
    &[3, 3, 3, 3],
    &[1, 2, 2, 2],
    &[2, 3, 2, 2],
    &[2, 2, 18, 2],
    &[2, 2, 2, 0],
    &[0, 0, 0, 0],
    &[130, 2, 2, 2],
    &[15, 16, 16, 16],
    &[16, 16, 16, 18],
    b"2222",
];

/// Not four bytes: with four that fit, then one that others would drop; where row 1 would hold too.
const MISCOUNTED: [Input; 11] = [
    &[],
    &[2],
    &[2, 2],
    &[2, 2, 2],
    &[2, 2, 2, 2, 2],
    &[2, 2, 2, 2, 0],
    &[2, 2, 2, 2, b'\n'],
    &[3, 2, 2, 2, 2],
    &[2, 2, 2, 2, 2, 2, 2, 2],
    &[3],
    &[3, 3, 3, 3, 3],
];

/// So many bytes are four to a count of one byte or two.
const LONG: [usize; 2] = [(1 << 8) + 4, (1 << 16) + 4];

/// All accepted ones, of which the first is 2 2 2 2, and then those that are refused.
pub fn listed() -> Vec<Vec<u8>> {
    let accepted = crossed(&EVEN).filter(|ext| ext.iter().product::<usize>() <= MOST_SITES);
    let refused = [&TOO_MANY_SITES[..], &ROW_1, &MISCOUNTED].concat();
    accepted
        .map(|ext| ext.map(|n| n as u8).to_vec())
        .chain(refused.into_iter().map(<[u8]>::to_vec))
        .collect()
}

/// Too long to be listed.
pub fn long() -> impl Iterator<Item = Vec<u8>> {
    LONG.into_iter().map(|count| vec![2; count])
}

/// Pieces that come one after the other: the first accepted one and the miscounted ones, cut in two at
/// every place, before the first byte and after the last too.
pub fn pieces() -> impl Iterator<Item = [Input; 2]> {
    let cut: [Input; 1] = [&[2, 2, 2, 2]];
    let cut = cut.into_iter().chain(MISCOUNTED);
    cut.flat_map(|input| (0..=input.len()).map(|at| input.split_at(at).into()))
}
