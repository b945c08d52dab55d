//! The update of one link from any two matrices, with norms at the bound and past the range.

use crate::face::{self, Mat};
use crate::flat;
use crate::inputs::{Source, power_of_two};
use crate::reference::su3::mat::{Quat, SUBGROUPS, Su3, left_mul_sub, sub_block};
use crate::tally::{Tally, Words, answer, refused, words};
use crate::update;

/// Of every mixture of matrices.
const PAIRS: usize = 600_000;
/// Of links of the group with a matrix that is then scaled, so that each norm in turn meets the bound.
const AT_BOUND: usize = 8_000;
/// With rows so large that norms overflow.
const OVERFLOWING: usize = 40_000;

/// The pattern of 1e-12: a norm below it is short.
const BOUND: u64 = 0x3d71_9799_812d_ea11;

pub fn compare(tally: &mut Tally) {
    let mut source = Source::new(8);
    examples(tally);
    for number in 0..PAIRS {
        let [u, staple] = source.matrices(number);
        check(tally, &flat::matrix(&u), &flat::matrix(&staple));
    }
    at_bound(tally, &mut source);
    overflowing(tally, &mut source);
}

/// By the reference, which must have drawn exactly where a norm is short.
fn check(tally: &mut Tally, u: &Su3, staple: &Su3) {
    let short = norms(u, staple).iter().any(|&k| k < 1e-12);
    assert_eq!(update::undrawn(u, staple).is_none(), short);
    hold(
        tally,
        u,
        staple,
        &update::answered(update::updated(u, staple)),
    );
}

fn hold(tally: &mut Tally, u: &Su3, staple: &Su3, rust: &Words) {
    let [u, staple]: [Mat; 2] = [u, staple].map(flat::numbers);
    let (refusal, link) = face::update_link(&u, &staple);
    let inputs: Words = u.iter().chain(&staple).map(|x| x.to_bits()).collect();
    let rattle = answer(refusal, words(&link));
    tally.check("jj_update_link", &inputs, &rattle, rust);
}

/// With the answers known: a link of zeros, one of NaNs, and the identity with itself times the
/// numbers around the bound, whose norms are these numbers. Accepted, it stays, but for zeros' signs.
fn examples(tally: &mut Tally) {
    let identity = Su3::IDENTITY;
    let mut kept = identity;
    kept.reunitarize();
    for u in [Su3::ZERO, flat::matrix(&[f64::NAN; 18])] {
        hold(tally, &u, &identity, &refused(9, 18));
    }
    for pattern in BOUND - 16..=BOUND + 16 {
        let staple = identity.scale(f64::from_bits(pattern));
        let rust = if pattern < BOUND {
            refused(9, 18)
        } else {
            answer(0, words(&flat::numbers(&kept)))
        };
        hold(tally, &identity, &staple, &rust);
        check(tally, &identity, &staple);
    }
}

/// The three norms that the reference's update meets, as if none were short.
fn norms(u: &Su3, staple: &Su3) -> [f64; 3] {
    let mut w = *u * *staple;
    SUBGROUPS.map(|subgroup| {
        let v = Quat::project(sub_block(&w, subgroup));
        let k = v.norm();
        let back = Quat(v.0.map(|c| c / k)).conj();
        left_mul_sub(&mut w, subgroup, &back.mul(&back).to_mat());
        k
    })
}

/// The norms grow with the staple, so that a factor brings each of them to within a few steps of the
/// bound. At each of the three subgroups the bound itself and both its neighbours are then met where
/// the other two norms are above it, and so the answer turns on that norm alone.
fn at_bound(tally: &mut Tally, source: &mut Source) {
    let mut met = [[0; 3]; 3];
    for _ in 0..AT_BOUND {
        let [u, staple] = source.group_and_raw();
        for k in norms(&u, &staple) {
            let factor = (f64::from_bits(BOUND) / k).to_bits();
            for pattern in factor - 3..=factor + 3 {
                let staple = staple.scale(f64::from_bits(pattern));
                check(tally, &u, &staple);
                count(&mut met, norms(&u, &staple).map(f64::to_bits));
            }
        }
    }
    assert!(met.as_flattened().iter().all(|&n| n > 0), "{met:?}");
}

/// Counts a norm beside the bound, on it or past it, where the two others are further above.
fn count(met: &mut [[u32; 3]; 3], norms: [u64; 3]) {
    for (number, met) in met.iter_mut().enumerate() {
        let others = norms.iter().enumerate().filter(|(n, _)| *n != number);
        let near = norms[number].wrapping_sub(BOUND - 1);
        if near < 3 && others.into_iter().all(|(_, &k)| k > BOUND + 1) {
            met[near as usize] += 1;
        }
    }
}

/// A norm of infinity is not short, and the link can still come out finite.
fn overflowing(tally: &mut Tally, source: &mut Source) {
    let mut accepted = 0;
    for number in 0..OVERFLOWING {
        let [group, mut staple] = source.group_and_raw();
        for row in &mut staple.m {
            let factor = [1.0, 1e-160, 1e160, 1e200, power_of_two(1000)][source.below(5) as usize];
            *row = row.map(|c| c.scale(factor));
        }
        let u = [Su3::IDENTITY, group][number % 2];
        check(tally, &u, &staple);
        let infinite = norms(&u, &staple).contains(&f64::INFINITY);
        accepted += u32::from(infinite && update::updated(&u, &staple).is_some());
    }
    assert!(accepted > 0, "no infinite norm was accepted");
}

impl Source {
    fn group_and_raw(&mut self) -> [Su3; 2] {
        let [mut u, raw] =
            [(); 2].map(|()| flat::matrix(&std::array::from_fn(|_| self.ordinary())));
        u.reunitarize();
        [u, raw]
    }
}
