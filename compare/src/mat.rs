//! Matrices, blocks and quaternions against the reference's, on pairs of matrices.

use crate::face::{self, Block, Mat, Quaternion};
use crate::flat;
use crate::inputs::Source;
use crate::reference::su3::mat::{C64, Quat, SUBGROUPS, Su3, left_mul_sub, sub_block};
use crate::rows;
use crate::tally::{Tally, Words, answer, bits, refused, words};

const PAIRS: usize = 1_200_000;

/// Subgroups above 2, which are refused.
const BEYOND: [usize; 6] = [3, 4, 255, 1 << 32, 1 << 63, usize::MAX];

/// Two matrices as the header and as the reference has them, and a subgroup. Blocks and quaternions
/// are the first numbers of the matrices.
pub struct Pair {
    a: Mat,
    b: Mat,
    x: Su3,
    y: Su3,
    subgroup: usize,
}

/// A call on a pair, on both sides.
pub struct Call {
    pub name: &'static str,
    rattle: fn(&Pair) -> Words,
    pub rust: fn(&Pair) -> Words,
}

pub const CALLS: [Call; 21] = [
    Call {
        name: "jj_su3_mul",
        rattle: |p| words(&face::binary(face::jj_su3_mul, &p.a, &p.b)),
        rust: |p| of_matrix(p.x * p.y),
    },
    Call {
        name: "jj_su3_mul_dag",
        rattle: |p| words(&face::binary(face::jj_su3_mul_dag, &p.a, &p.b)),
        rust: |p| of_matrix(p.x.mul_dag(&p.y)),
    },
    Call {
        name: "jj_su3_dag_mul",
        rattle: |p| words(&face::binary(face::jj_su3_dag_mul, &p.a, &p.b)),
        rust: |p| of_matrix(p.x.dag_mul(&p.y)),
    },
    Call {
        name: "jj_su3_add",
        rattle: |p| words(&face::binary(face::jj_su3_add, &p.a, &p.b)),
        rust: |p| of_matrix(p.x + p.y),
    },
    Call {
        name: "jj_su3_sub",
        rattle: |p| words(&face::binary(face::jj_su3_sub, &p.a, &p.b)),
        rust: |p| of_matrix(p.x - p.y),
    },
    Call {
        name: "jj_su3_dagger",
        rattle: |p| words(&face::unary(face::jj_su3_dagger, &p.a)),
        rust: |p| of_matrix(p.x.dagger()),
    },
    Call {
        name: "jj_su3_scale",
        rattle: |p| words(&face::su3_scale(&p.a, p.b[0])),
        rust: |p| of_matrix(p.x.scale(p.b[0])),
    },
    Call {
        name: "jj_su3_trace",
        rattle: |p| words(&face::unary(face::jj_su3_trace, &p.a)),
        rust: |p| of_complex(p.x.trace()),
    },
    Call {
        name: "jj_su3_re_tr",
        rattle: |p| words(&[face::jj_su3_re_tr(&p.a)]),
        rust: |p| words(&[p.x.re_tr()]),
    },
    Call {
        name: "jj_su3_dist_sqr",
        rattle: |p| words(&[face::jj_su3_dist_sqr(&p.a, &p.b)]),
        rust: |p| words(&[p.x.dist_sqr(&p.y)]),
    },
    Call {
        name: "jj_su3_det",
        rattle: |p| words(&face::unary(face::jj_su3_det, &p.a)),
        rust: |p| of_complex(p.x.det()),
    },
    Call {
        name: "jj_su3_reunitarize",
        rattle: |p| words(&face::unary(face::jj_su3_reunitarize, &p.a)),
        rust: |p| of_matrix(reunitarized(p.x)),
    },
    Call {
        name: "jj_su3_traceless_antihermitian",
        rattle: |p| words(&face::unary(face::jj_su3_traceless_antihermitian, &p.a)),
        rust: |p| of_matrix(p.x.traceless_antihermitian()),
    },
    Call {
        name: "jj_su3_exp_antihermitian",
        rattle: |p| words(&face::unary(face::jj_su3_exp_antihermitian, &p.a)),
        rust: |p| of_matrix(Su3::exp_antihermitian(&p.x)),
    },
    Call {
        name: "jj_sub_block",
        rattle: |p| checked(face::sub_block(&p.a, p.subgroup)),
        rust: rust_sub_block,
    },
    Call {
        name: "jj_left_mul_sub",
        rattle: |p| checked(face::left_mul_sub(&p.a, p.subgroup, block(&p.b))),
        rust: rust_left_mul_sub,
    },
    Call {
        name: "jj_quat_project",
        rattle: |p| words(&face::unary(face::jj_quat_project, block(&p.a))),
        rust: |p| words(&Quat::project(flat::block(block(&p.a))).0),
    },
    Call {
        name: "jj_quat_norm",
        rattle: |p| words(&[face::jj_quat_norm(four(&p.a))]),
        rust: |p| words(&[quat(&p.a).norm()]),
    },
    Call {
        name: "jj_quat_conj",
        rattle: |p| words(&face::unary(face::jj_quat_conj, four(&p.a))),
        rust: |p| words(&quat(&p.a).conj().0),
    },
    Call {
        name: "jj_quat_mul",
        rattle: |p| words(&face::binary(face::jj_quat_mul, four(&p.a), four(&p.b))),
        rust: |p| words(&quat(&p.a).mul(&quat(&p.b)).0),
    },
    Call {
        name: "jj_quat_to_mat",
        rattle: |p| words(&face::unary(face::jj_quat_to_mat, four(&p.a))),
        rust: |p| words(&flat::block_numbers(&quat(&p.a).to_mat())),
    },
];

pub fn compare(tally: &mut Tally) {
    let mut source = Source::new(5);
    for number in 0..PAIRS {
        let pair = Pair::new(source.matrices(number), subgroup(&mut source));
        let inputs = pair.words();
        for call in &CALLS {
            tally.check(
                call.name,
                &inputs,
                &(call.rattle)(&pair),
                &(call.rust)(&pair),
            );
        }
    }
}

/// Above 2 once in sixteen.
fn subgroup(source: &mut Source) -> usize {
    if source.below(16) == 0 {
        BEYOND[source.below(6) as usize]
    } else {
        source.below(3) as usize
    }
}

impl Pair {
    pub fn new([a, b]: [Mat; 2], subgroup: usize) -> Self {
        let [x, y] = [a, b].map(|m| flat::matrix(&m));
        Self {
            a,
            b,
            x,
            y,
            subgroup,
        }
    }

    fn words(&self) -> Words {
        let numbers = self.a.iter().chain(&self.b).map(|x| x.to_bits());
        numbers.chain([self.subgroup as u64]).collect()
    }
}

fn block(numbers: &Mat) -> &Block {
    numbers.first_chunk().expect("eight of eighteen")
}

fn four(numbers: &Mat) -> &Quaternion {
    numbers.first_chunk().expect("four of eighteen")
}

fn quat(numbers: &Mat) -> Quat {
    Quat(*four(numbers))
}

fn of_matrix(m: Su3) -> Words {
    words(&flat::numbers(&m))
}

pub fn of_complex(c: C64) -> Words {
    words(&[c.re, c.im])
}

fn checked<const N: usize>((refusal, numbers): (u32, [f64; N])) -> Words {
    answer(refusal, numbers.into_iter().map(bits))
}

fn reunitarized(mut m: Su3) -> Su3 {
    m.reunitarize();
    m
}

fn rust_sub_block(p: &Pair) -> Words {
    match rows::of_subgroup(p.subgroup) {
        0 => checked((
            0,
            flat::block_numbers(&sub_block(&p.x, SUBGROUPS[p.subgroup])),
        )),
        row => refused(row, 8),
    }
}

fn rust_left_mul_sub(p: &Pair) -> Words {
    match rows::of_subgroup(p.subgroup) {
        0 => {
            let mut m = p.x;
            left_mul_sub(&mut m, SUBGROUPS[p.subgroup], &flat::block(block(&p.b)));
            checked((0, flat::numbers(&m)))
        }
        row => refused(row, 18),
    }
}
