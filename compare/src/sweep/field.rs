//! A field on which half-sweeps run, and the check of each call of a run. After each call its answer,
//! the whole job, whether it is finished, and every number of every list are held to the field at the
//! opening with the sites visited by then updated from it at once. So nothing that a frame has stored
//! has a part in what is expected.

use crate::face::{self, Four};
use crate::flat;
use crate::ground::{Lists, Padded, UNCHANGED, changed};
use crate::kinds::{self, Kind};
use crate::reference::su3::lattice::Su3Lattice;
use crate::rows::Job;
use crate::tally::{Tally, Words, answer};
use crate::update::{self, Visit};
use std::cell::Cell;

/// A field as the library has it, and as it should be.
pub struct Field {
    label: [u64; 2],
    ext: Four,
    coupling: f64,
    /// Of the plan.
    pub pass: u64,
    padded: Padded,
    now: Lists,
    /// Another field, whose list is lent to frames that are to be refused.
    pub other: Padded,
    other_now: Lists,
}

/// So many numbers from the front of the field's own list, or of the other's.
pub enum List {
    Own(usize),
    Other(usize),
}

/// A half-sweep on the way.
pub struct Run {
    /// Every site of the parity, updated from the field at the opening.
    pub visits: Vec<Visit>,
    opened: Job,
    job: face::Job,
    /// The sizes of the accepted frames, added up.
    pub sum: u128,
}

impl Field {
    pub fn new(kind: &Kind, label: [u64; 2], ext: Four) -> Self {
        let seed = label[1];
        let lists = |ext, seed| Lists::new(kinds::links(kind, ext, seed), vec![]);
        let (now, other_now) = (lists(ext, seed), lists([2, 2, 4, 2], seed + 100));
        Self {
            label,
            ext,
            coupling: [6.0, 0.0, -0.0, 100.0, 5.75][seed as usize % 5],
            pass: 0,
            padded: now.padded(),
            now,
            other: other_now.padded(),
            other_now,
        }
    }

    pub fn numbers(&self) -> usize {
        72 * self.ext.iter().product::<usize>()
    }

    /// The reference with the links as they should be.
    pub fn lattice(&self) -> Su3Lattice {
        let mut lattice = flat::lattice(self.ext, &self.now.links[..self.numbers()]);
        lattice.beta = self.coupling;
        lattice
    }

    /// With any seed, which overrelaxation never reads.
    pub fn open(&mut self, tally: &mut Tally, seed: u64, mu: usize, parity: usize) -> Run {
        let opened = Job {
            direction: mu as u64,
            parity: parity as u64,
            pass: self.pass,
            ..Job::default()
        };
        let plan = [seed, self.pass];
        let (refusal, job, pass) = face::open_overrelax(&self.ext, self.coupling, plan, mu, parity);
        let rattle = answer(refusal, job.into_iter().chain([pass]));
        let next = self.pass + 1;
        let rust = answer(0, opened.over(self.ext).into_iter().chain([next]));
        tally.check("jj_open_overrelax", &self.inputs(), &rattle, &rust);
        self.pass = pass;
        let lattice = self.lattice();
        let visits = update::visits(&lattice, mu, lattice.sites_of(parity));
        let run = Run {
            visits,
            opened,
            job,
            sum: 0,
        };
        run.finished(tally);
        run
    }

    /// A frame, accepted where its list is the field's own and whole.
    pub fn frame(&mut self, tally: &mut Tally, run: &mut Run, list: List, size: usize) {
        let (links, refused) = match list {
            List::Own(n) => (&self.padded.links[..n], n != self.numbers()),
            List::Other(n) => (&self.other.links[..n], true),
        };
        let (refusal, job) = face::frame_overrelax(run.job, size, links);
        let inputs = [
            self.inputs(),
            run.inputs(),
            vec![size as u64, links.len() as u64],
        ]
        .concat();
        if !refused {
            run.sum += size as u128;
        }
        let visited = run.visited();
        update::write(&mut self.now.links, visited);
        let due = update::after(run.opened, visited);
        let kept = [
            changed(&self.padded, &self.now),
            changed(&self.other, &self.other_now),
        ];
        let rattle = answer(refusal, job.into_iter().chain(kept.concat()));
        let rust = answer(
            if refused { 3 } else { 0 },
            due.over(self.ext)
                .into_iter()
                .chain([UNCHANGED; 2].concat()),
        );
        tally.check("jj_frame_overrelax", &inputs, &rattle, &rust);
        run.job = job;
        run.finished(tally);
    }

    /// A finished run against the reference's half-sweep, stuck links aside.
    pub fn against_half_sweep(&self, tally: &mut Tally, opening: Su3Lattice, run: &Run) {
        let [mu, parity] = [run.opened.direction, run.opened.parity].map(|n| n as usize);
        let mut lattice = opening.clone();
        lattice.half_sweep_overrelax(mu, parity);
        for (visit, &site) in run.visits.iter().zip(opening.sites_of(parity)) {
            if visit.link.is_none() {
                lattice.links[mu][site] = opening.links[mu][site];
            }
        }
        let inputs = [self.inputs(), run.inputs()].concat();
        tally.check(
            "half_sweep_overrelax",
            &inputs,
            &[self.differing(&lattice)],
            &[0],
        );
    }

    /// How many of the library's numbers are not the lattice's.
    pub fn differing(&self, lattice: &Su3Lattice) -> u64 {
        let pairs = self.padded.links.iter().zip(flat::links(lattice));
        let differ = |(a, b): (&Cell<f64>, f64)| u64::from(a.get().to_bits() != b.to_bits());
        pairs.map(differ).sum()
    }

    pub fn inputs(&self) -> Words {
        [self.label.to_vec(), self.ext.map(|n| n as u64).to_vec()].concat()
    }
}

impl Run {
    /// What the frames so far have visited.
    fn visited(&self) -> &[Visit] {
        let all = self.visits.len();
        &self.visits[..self.sum.min(all as u128) as usize]
    }

    fn finished(&self, tally: &mut Tally) {
        let (refusal, [finished]) = face::finished(&self.job);
        let rattle = [refusal, finished].map(u64::from);
        let due = self.visited().len() == self.visits.len();
        tally.check("jj_finished", &self.job, &rattle, &[0, due.into()]);
    }

    fn inputs(&self) -> Words {
        let Job {
            direction, parity, ..
        } = self.opened;
        vec![direction, parity, self.visited().len() as u64]
    }
}
