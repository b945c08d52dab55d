//! What a call of the lattice, of the sweep, of the fields or of the baryon is tried on, and the check
//! of its whole answer: the refusal number, the other numbers, and every number of the lists
//! afterwards.

mod lists;

pub use lists::{BEFORE, Lists, Padded, UNCHANGED, changed};

use crate::calls::Call;
use crate::face::Four;
use crate::flat;
use crate::reference::su3::lattice::Su3Lattice;
use crate::rows::{self, Arguments};
use crate::tally::{Tally, Words, answer};

pub struct Ground {
    /// The number of the field's kind, and its seed.
    label: [u64; 2],
    /// The reference, with the same links.
    pub lattice: Su3Lattice,
    /// The lists before each call.
    before: Lists,
}

impl Ground {
    /// The lattice takes the front of the list of links.
    pub fn new(label: [u64; 2], ext: Four, before: Lists) -> Self {
        let numbers = 72 * ext.iter().product::<usize>();
        Self {
            label,
            lattice: flat::lattice(ext, &before.links[..numbers]),
            before,
        }
    }

    /// For calls that take no links.
    pub fn bare(ext: Four, before: Lists) -> Self {
        Self {
            label: [0; 2],
            lattice: Su3Lattice::cold(ext, 0.0, 0),
            before,
        }
    }

    /// Makes the call and checks it by the rows and the reference. The lists are then as before.
    pub fn check(&mut self, tally: &mut Tally, call: &Call, a: &Arguments, padded: &Padded) {
        let rust = call.expected(a, &mut self.lattice);
        self.hold(tally, call, a, padded, rust);
    }

    /// The same by an answer that is known.
    pub fn hold(
        &self,
        tally: &mut Tally,
        call: &Call,
        a: &Arguments,
        padded: &Padded,
        rust: Words,
    ) {
        let written = call
            .writes
            .filter(|_| call.writes_at(rust[0]))
            .map(|write| {
                let mut lists = self.before.clone();
                write(a, &self.lattice, &mut lists);
                lists
            });
        self.settle(tally, call, a, padded, rust, written);
    }

    /// The same by what is known of the second list: the numbers to be stored, which row 10 checks.
    /// The other arguments are good.
    pub fn fill(
        &self,
        tally: &mut Tally,
        call: &Call,
        a: &Arguments,
        padded: &Padded,
        numbers: &[f64],
    ) {
        let refused = rows::not_finite(numbers);
        let written = (!refused).then(|| {
            let mut lists = self.before.clone();
            lists.fill(numbers);
            lists
        });
        let rust = answer(if refused { 10 } else { 0 }, []);
        self.settle(tally, call, a, padded, rust, written);
    }

    /// Makes the call and compares. Places of the lists that are not as they should be are counted at
    /// the end of the library's answer.
    fn settle(
        &self,
        tally: &mut Tally,
        call: &Call,
        a: &Arguments,
        padded: &Padded,
        mut rust: Words,
        written: Option<Lists>,
    ) {
        let mut rattle = (call.rattle)(a);
        let changed = changed(padded, written.as_ref().unwrap_or(&self.before));
        rattle.extend(changed);
        rust.extend(UNCHANGED);
        tally.check(call.name, &self.inputs(a), &rattle, &rust);
        if written.is_some() || changed != UNCHANGED {
            self.restore(padded);
        }
    }

    /// The lists as before each call.
    pub fn restore(&self, padded: &Padded) {
        padded.set(&self.before);
    }

    /// In the order in which they are named here, the coordinates after the site, a whole job before
    /// the frame's size, an accumulator last.
    pub fn inputs(&self, a: &Arguments) -> Words {
        let [links, site, mu, nu, room] =
            [a.links.len(), a.site, a.mu, a.nu, a.found.len()].map(word);
        let (ext, at) = (a.ext.map(word), a.at.map(word));
        let numbers = [a.coupling.to_bits(), a.seed, links, site];
        let others = [mu, nu, room, word(a.parity), a.pass];
        let job = a.job.over(a.ext);
        let fields = [a.rho.to_bits(), word(a.axis), word(a.second.len())];
        let lists = [a.steps.len(), a.grid.len(), a.scratch.len()].map(word);
        let flux = a.flux.arrays();
        let parts: [&[u64]; 13] = [
            &self.label,
            &ext,
            &numbers,
            &at,
            &others,
            &job,
            &[word(a.size)],
            &fields,
            &[a.count.into(), a.number.into()],
            &lists,
            &flux.counts,
            &flux.offsets.map(|c| c as u64),
            &flux.sums.map(f64::to_bits),
        ];
        parts.concat()
    }
}

fn word(n: usize) -> u64 {
    n as u64
}
