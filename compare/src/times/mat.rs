//! Calls of matrices. Each side has its numbers in its own form, and the calls do not wait for each
//! other.

use crate::face::{self, Mat};
use crate::flat;
use crate::inputs::Source;
use crate::reference::su3::mat::Su3;
use crate::stopwatch::Row;

/// Few enough for their numbers to stay in a near cache.
const CALLS: usize = 1 << 10;

type One<M> = extern "C" fn(&M, &mut M);
type Two<M> = extern "C" fn(&M, &M, &mut M);

#[derive(Clone, Copy)]
enum Side<F, G> {
    Rattle(F),
    Rust(G),
}

trait Matrix {
    const CLEAR: Self;
    fn first(&self) -> u64;
}

impl Matrix for Mat {
    const CLEAR: Self = [0.0; 18];
    fn first(&self) -> u64 {
        self[0].to_bits()
    }
}

impl Matrix for Su3 {
    const CLEAR: Self = Su3::ZERO;
    fn first(&self) -> u64 {
        self.m[0][0].re.to_bits()
    }
}

/// Pairs of the same matrices for both sides.
struct Pairs {
    rattle: Vec<[Mat; 2]>,
    rust: Vec<[Su3; 2]>,
}

impl Pairs {
    fn new(mut make: impl FnMut() -> Su3) -> Self {
        let rust: Vec<[Su3; 2]> = (0..CALLS).map(|_| [make(), make()]).collect();
        let rattle = rust.iter().map(|pair| pair.map(|m| flat::numbers(&m)));
        Self {
            rattle: rattle.collect(),
            rust,
        }
    }

    fn one(&self, call: &'static str, rattle: One<Mat>, rust: One<Su3>) -> Row {
        let sides = [Side::Rattle(rattle), Side::Rust(rust)];
        Row::race(call, CALLS, sides, |side| match side {
            Side::Rattle(f) => pass(&self.rattle, |[a, _], out| f(a, out)),
            Side::Rust(f) => pass(&self.rust, |[a, _], out| f(a, out)),
        })
    }

    fn two(&self, call: &'static str, rattle: Two<Mat>, rust: Two<Su3>) -> Row {
        let sides = [Side::Rattle(rattle), Side::Rust(rust)];
        Row::race(call, CALLS, sides, |side| match side {
            Side::Rattle(f) => pass(&self.rattle, |[a, b], out| f(a, b, out)),
            Side::Rust(f) => pass(&self.rust, |[a, b], out| f(a, b, out)),
        })
    }
}

fn pass<M: Matrix>(pairs: &[[M; 2]], call: impl Fn(&[M; 2], &mut M)) -> u64 {
    pairs.iter().fold(0, |sum, pair| {
        let mut out = M::CLEAR;
        call(pair, &mut out);
        sum ^ out.first()
    })
}

pub fn rows() -> Vec<Row> {
    let mut source = Source::new(7);
    let mut raw = || flat::matrix(&std::array::from_fn(|_| source.ordinary()));
    let any = Pairs::new(&mut raw);
    let group = Pairs::new(|| {
        let mut m = raw();
        m.reunitarize();
        m
    });
    let generators = Pairs::new(|| raw().traceless_antihermitian());
    vec![
        group.two("su3_mul", face::jj_su3_mul, mul),
        group.two("su3_mul_dag", face::jj_su3_mul_dag, mul_dag),
        group.two("su3_dag_mul", face::jj_su3_dag_mul, dag_mul),
        group.two("su3_add", face::jj_su3_add, add),
        any.one("su3_reunitarize", face::jj_su3_reunitarize, reunitarize),
        generators.one(
            "su3_exp_antihermitian",
            face::jj_su3_exp_antihermitian,
            exp_antihermitian,
        ),
    ]
}

#[inline(never)]
extern "C" fn mul(a: &Su3, b: &Su3, out: &mut Su3) {
    *out = *a * *b;
}

#[inline(never)]
extern "C" fn mul_dag(a: &Su3, b: &Su3, out: &mut Su3) {
    *out = a.mul_dag(b);
}

#[inline(never)]
extern "C" fn dag_mul(a: &Su3, b: &Su3, out: &mut Su3) {
    *out = a.dag_mul(b);
}

#[inline(never)]
extern "C" fn add(a: &Su3, b: &Su3, out: &mut Su3) {
    *out = *a + *b;
}

#[inline(never)]
extern "C" fn reunitarize(a: &Su3, out: &mut Su3) {
    *out = *a;
    out.reunitarize();
}

#[inline(never)]
extern "C" fn exp_antihermitian(a: &Su3, out: &mut Su3) {
    *out = Su3::exp_antihermitian(a);
}
