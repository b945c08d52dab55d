//! The document's update of one link, and of the links that frames visit, by the reference's.
//!
//! The reference draws from its generator exactly where a norm is below 1e-12. So a link is stuck
//! where the reference's update has drawn, or has left a number that is not finite.

use crate::face::Mat;
use crate::flat;
use crate::reference::su3::lattice::{Su3Lattice, overrelaxed};
use crate::reference::su3::mat::Su3;
use crate::reference::su3::rng::Rng;
use crate::rows::{self, Job};
use crate::tally::{Words, answer, refused, words};

/// A state that no few draws lead back to.
const UNDRAWN: [u64; 4] = [1, 2, 3, 4];

/// A site that a frame visits: where its link's numbers begin in the list, and the updated link, or
/// none where it is stuck.
pub struct Visit {
    pub place: usize,
    pub link: Option<Mat>,
}

/// The updated link, or none where it is stuck.
pub fn updated(u: &Su3, staple: &Su3) -> Option<Mat> {
    undrawn(u, staple).filter(|link| !rows::not_finite(link))
}

/// The reference's link, or none where it has drawn.
pub fn undrawn(u: &Su3, staple: &Su3) -> Option<Mat> {
    let mut rng = Rng::of_state(UNDRAWN);
    let link = flat::numbers(&overrelaxed(*u, staple, &mut rng));
    (rng.state() == UNDRAWN).then_some(link)
}

pub fn at(lattice: &Su3Lattice, mu: usize, site: usize) -> Option<Mat> {
    updated(&lattice.links[mu][site], &lattice.staple(site, mu))
}

/// The answer of a single update: row 9 where the link is stuck.
pub fn answered(link: Option<Mat>) -> Words {
    link.map_or_else(|| refused(9, 18), |link| answer(0, words(&link)))
}

/// Visits of these sites, all from the field as it stands.
pub fn visits(lattice: &Su3Lattice, mu: usize, sites: &[usize]) -> Vec<Visit> {
    let visit = |&site: &usize| Visit {
        place: 18 * (mu * lattice.n_sites() + site),
        link: at(lattice, mu, site),
    };
    sites.iter().map(visit).collect()
}

/// How many of the visits met a stuck link.
pub fn stuck(visits: &[Visit]) -> u64 {
    visits.iter().filter(|visit| visit.link.is_none()).count() as u64
}

/// The job after these visits.
pub fn after(job: Job, visits: &[Visit]) -> Job {
    Job {
        visited: job.visited + visits.len() as u64,
        stuck: job.stuck + stuck(visits),
        ..job
    }
}

/// The links after these visits: a stuck one keeps its bits.
pub fn write(links: &mut [f64], visits: &[Visit]) {
    for visit in visits {
        if let Some(link) = visit.link {
            links[visit.place..][..18].copy_from_slice(&link);
        }
    }
}
