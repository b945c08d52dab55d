//! The calls that fill a second list, on one field: every number of it, and all that was lent.

use crate::calls::{
    self, ACTION_DENSITY, Call, ELECTRIC_SQ, STOUT_STEP, TOPOLOGICAL_CHARGE_DENSITY,
};
use crate::face::{self, Four};
use crate::flat;
use crate::ground::{Ground, Lists, Padded};
use crate::reference::su3::fields::FieldStrength;
use crate::reference::su3::lattice::Su3Lattice;
use crate::rows::{self, Arguments};
use crate::tally::Tally;
use std::fmt;

/// A field as both sides have it, and a second list that is long enough for smeared links.
pub struct Field {
    ext: Four,
    numbers: usize,
    ground: Ground,
    padded: Padded,
}

/// What was seen of action densities, in lists that are finite.
#[derive(Default)]
pub struct Actions {
    all: u64,
    /// The library has +0 where the reference's own sum has -0, the named difference.
    zeros: u64,
    /// The density is not its electric half plus its magnetic half.
    halves: u64,
}

impl fmt::Display for Actions {
    fn fmt(&self, f: &mut fmt::Formatter<'_>) -> fmt::Result {
        let Self { all, zeros, halves } = self;
        write!(
            f,
            "of {all} action densities {zeros} are +0 and the Rust's own sum is -0; {halves} are not \
             the electric half plus the magnetic half"
        )
    }
}

impl Field {
    pub fn new(label: [u64; 2], ext: Four, links: Vec<f64>) -> Self {
        let numbers = links.len();
        let lists = Lists::new(links, vec![]).and_second(numbers);
        Self {
            ext,
            numbers,
            padded: lists.padded(),
            ground: Ground::new(label, ext, lists),
        }
    }

    pub fn lattice(&self) -> &Su3Lattice {
        &self.ground.lattice
    }

    /// Good ones: the second list is as long as the call wants it.
    fn arguments(&self, call: &Call) -> Arguments<'_> {
        let a = self.padded.arguments(self.ext, self.numbers, 0);
        let each = rows::second(call.takes).expect("a call that fills a list");
        Arguments {
            second: &self.padded.second[..each * a.sites()],
            ..a
        }
    }

    pub fn step(&self, tally: &mut Tally, rho: f64) {
        let numbers = calls::smeared(self.lattice(), rho);
        let a = Arguments {
            rho,
            ..self.arguments(&STOUT_STEP)
        };
        self.ground
            .fill(tally, &STOUT_STEP, &a, &self.padded, &numbers);
    }

    /// All five lists: action, charge, and the three axes.
    pub fn densities(&self, tally: &mut Tally, actions: &mut Actions) {
        let strength = self.lattice().field_strength();
        let [action, charge, x, y, z] = of(&strength);
        self.density(tally, &ACTION_DENSITY, 0, &action);
        self.density(tally, &TOPOLOGICAL_CHARGE_DENSITY, 0, &charge);
        for (axis, numbers) in [x, y, z].iter().enumerate() {
            self.density(tally, &ELECTRIC_SQ, axis, numbers);
        }
        self.against_own_sums(tally, &strength, actions);
    }

    fn density(&self, tally: &mut Tally, call: &Call, axis: usize, numbers: &[f64]) {
        let a = Arguments {
            axis,
            ..self.arguments(call)
        };
        self.ground.fill(tally, call, &a, &self.padded, numbers);
    }

    /// `action_density` against the unchanged Rust's own sums: no more than the sign of a zero differs.
    fn against_own_sums(&self, tally: &mut Tally, strength: &FieldStrength, actions: &mut Actions) {
        let own = strength.action_density();
        let a = self.arguments(&ACTION_DENSITY);
        let refusal = face::action_density(&a.ext, a.links, a.second);
        let mut differing = 0;
        if !rows::not_finite(&own) {
            let terms = calls::plane_densities(strength);
            for ((place, own), terms) in a.second.iter().zip(&own).zip(terms) {
                let density = place.get();
                let halves = calls::sum(&terms[..3]) + calls::sum(&terms[3..]);
                differing += u64::from(density != *own);
                actions.all += 1;
                actions.zeros += u64::from(density == *own && density.to_bits() != own.to_bits());
                actions.halves += u64::from(density != halves);
            }
        }
        let due = if rows::not_finite(&own) { 10 } else { 0 };
        let rattle = [refusal.into(), differing];
        tally.check(
            "jj_action_density, the Rust's own",
            &self.ground.inputs(&a),
            &rattle,
            &[due, 0],
        );
        self.ground.restore(&self.padded);
    }
}

/// Action, charge, and the three axes' squares.
pub fn of(strength: &FieldStrength) -> [Vec<f64>; 5] {
    let [x, y, z] = strength.electric_sq();
    let charge = strength.topological_charge_density();
    [calls::action_density(strength), charge, x, y, z]
}

/// With the answers known: the action density of a cold field is +0, a sum from +0 of six times -0,
/// its charge density is +0, and the squares are -0.
pub fn cold(tally: &mut Tally) {
    for ext in [[2, 2, 2, 2], [4, 2, 6, 2], [4, 4, 4, 4]] {
        let links = flat::links(&Su3Lattice::cold(ext, 6.0, 0));
        let sites = links.len() / 72;
        let field = Field::new([0; 2], ext, links);
        field.density(tally, &ACTION_DENSITY, 0, &vec![0.0; sites]);
        field.density(tally, &TOPOLOGICAL_CHARGE_DENSITY, 0, &vec![0.0; sites]);
        for axis in 0..3 {
            field.density(tally, &ELECTRIC_SQ, axis, &vec![-0.0; sites]);
        }
    }
}
