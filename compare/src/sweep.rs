//! The overrelaxation: updates of single links, single calls on any field and any job, and whole runs
//! of frames.

mod field;
mod links;
mod runs;
mod single;

use crate::face::Four;
use crate::tally::Tally;

/// Every kind of field on each of these.
const EXTENTS: [Four; 9] = [
    [2, 2, 2, 2],
    [4, 2, 2, 2],
    [2, 4, 2, 2],
    [2, 2, 4, 2],
    [2, 2, 2, 4],
    [2, 4, 6, 2],
    [16, 2, 2, 2],
    [2, 2, 2, 10],
    [4, 4, 4, 4],
];

pub fn compare(tally: &mut Tally) {
    links::compare(tally);
    single::compare(tally);
    runs::compare(tally);
}
