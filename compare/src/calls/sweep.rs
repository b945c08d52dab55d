//! The overrelaxation. A frame takes its job's extents from the arguments' extents, and so does the
//! question whether a job is finished.

use super::{Call, numbers};
use crate::face;
use crate::reference::su3::lattice::Su3Lattice;
use crate::rows::Part::{Coupling, Direction, Extents, Job, Links, Parity, Pass, Site, Size};
use crate::rows::{self, Arguments};
use crate::tally::answer;
use crate::update::{self, Visit};

/// Row 9 comes after all that check the arguments.
pub const OVERRELAX_LINK: Call = Call {
    name: "jj_overrelax_link",
    takes: &[Extents, Coupling, Links, Site, Direction],
    width: 18,
    rattle: |a| {
        numbers(face::overrelax_link(
            &a.ext,
            a.coupling,
            [a.site, a.mu],
            a.links,
        ))
    },
    rust: |a, lattice| update::answered(update::at(lattice, a.mu, a.site)),
    keeps: None,
    writes: None,
};

/// It hands back the plan's pass after the job.
pub const OPEN_OVERRELAX: Call = Call {
    name: "jj_open_overrelax",
    takes: &[Extents, Coupling, Direction, Parity, Pass],
    width: 9,
    rattle: |a| {
        let plan = [a.seed, a.pass];
        let (refusal, job, pass) = face::open_overrelax(&a.ext, a.coupling, plan, a.mu, a.parity);
        answer(refusal, job.into_iter().chain([pass]))
    },
    rust: |a, _| {
        let job = rows::Job {
            direction: a.mu as u64,
            parity: a.parity as u64,
            pass: a.pass,
            ..rows::Job::default()
        };
        answer(0, job.over(a.ext).into_iter().chain([a.pass + 1]))
    },
    keeps: Some(|a| vec![a.pass]),
    writes: None,
};

pub const FRAME_OVERRELAX: Call = Call {
    name: "jj_frame_overrelax",
    takes: &[Extents, Links, Job, Size],
    width: 0,
    rattle: |a| {
        let (refusal, job) = face::frame_overrelax(a.job.over(a.ext), a.size, a.links);
        answer(refusal, job)
    },
    rust: |a, lattice| answer(0, update::after(a.job, &visits(a, lattice)).over(a.ext)),
    keeps: Some(|a| a.job.over(a.ext).to_vec()),
    writes: Some(|a, lattice, lists| update::write(&mut lists.links, &visits(a, lattice))),
};

pub const FINISHED: Call = Call {
    name: "jj_finished",
    takes: &[Extents, Job],
    width: 1,
    rattle: |a| {
        let (refusal, [finished]) = face::finished(&a.job.over(a.ext));
        answer(refusal, [finished.into()])
    },
    rust: |a, lattice| {
        let half = lattice.n_sites() as u64 / 2;
        answer(0, [u64::from(a.job.visited == half)])
    },
    keeps: None,
    writes: None,
};

/// Of one frame on the field as it stands.
fn visits(a: &Arguments, lattice: &Su3Lattice) -> Vec<Visit> {
    let left = &lattice.sites_of(a.job.parity as usize)[a.job.visited as usize..];
    let sites = &left[..a.size.min(left.len())];
    update::visits(lattice, a.job.direction as usize, sites)
}
