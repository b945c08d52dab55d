//! Matrices, blocks and quaternions.

use super::with_room;

/// Nine complex numbers, row by row, real first.
pub type Mat = [f64; 18];
/// Four complex numbers, likewise.
pub type Block = [f64; 8];
pub type Quaternion = [f64; 4];
pub type Complex = [f64; 2];

// SAFETY: names and types are the header's, and no call keeps a pointer.
unsafe extern "C" {
    pub safe fn jj_su3_mul(a: &Mat, b: &Mat, out: &mut Mat);
    pub safe fn jj_su3_mul_dag(a: &Mat, b: &Mat, out: &mut Mat);
    pub safe fn jj_su3_dag_mul(a: &Mat, b: &Mat, out: &mut Mat);
    pub safe fn jj_su3_add(a: &Mat, b: &Mat, out: &mut Mat);
    pub safe fn jj_su3_sub(a: &Mat, b: &Mat, out: &mut Mat);
    pub safe fn jj_su3_dagger(a: &Mat, out: &mut Mat);
    pub safe fn jj_su3_scale(a: &Mat, s: f64, out: &mut Mat);
    pub safe fn jj_su3_trace(a: &Mat, out: &mut Complex);
    pub safe fn jj_su3_re_tr(a: &Mat) -> f64;
    pub safe fn jj_su3_dist_sqr(a: &Mat, b: &Mat) -> f64;
    pub safe fn jj_su3_det(a: &Mat, out: &mut Complex);
    pub safe fn jj_su3_reunitarize(a: &Mat, out: &mut Mat);
    pub safe fn jj_su3_traceless_antihermitian(a: &Mat, out: &mut Mat);
    pub safe fn jj_su3_exp_antihermitian(a: &Mat, out: &mut Mat);
    pub safe fn jj_sub_block(a: &Mat, subgroup: usize, out: &mut Block) -> u32;
    pub safe fn jj_left_mul_sub(a: &Mat, subgroup: usize, x: &Block, out: &mut Mat) -> u32;
    pub safe fn jj_quat_project(x: &Block, out: &mut Quaternion);
    pub safe fn jj_quat_norm(a: &Quaternion) -> f64;
    pub safe fn jj_quat_conj(a: &Quaternion, out: &mut Quaternion);
    pub safe fn jj_quat_mul(a: &Quaternion, b: &Quaternion, out: &mut Quaternion);
    pub safe fn jj_quat_to_mat(a: &Quaternion, out: &mut Block);
}

/// A call of one thing, with its answer by value.
pub fn unary<A, const N: usize>(call: extern "C" fn(&A, &mut [f64; N]), a: &A) -> [f64; N] {
    with_room(|out| call(a, out)).1
}

/// A call of two things of one type, with its answer by value.
pub fn binary<A, const N: usize>(
    call: extern "C" fn(&A, &A, &mut [f64; N]),
    a: &A,
    b: &A,
) -> [f64; N] {
    with_room(|out| call(a, b, out)).1
}

pub fn su3_scale(a: &Mat, s: f64) -> Mat {
    with_room(|out| jj_su3_scale(a, s, out)).1
}

pub fn sub_block(a: &Mat, subgroup: usize) -> (u32, Block) {
    with_room(|out| jj_sub_block(a, subgroup, out))
}

pub fn left_mul_sub(a: &Mat, subgroup: usize, x: &Block) -> (u32, Mat) {
    with_room(|out| jj_left_mul_sub(a, subgroup, x, out))
}
