//! The overrelaxation: one link, and half-sweeps in frames. Lists are cells, as the lattice's are.

use super::lattice::of_link;
use super::{Four, Mat, with_room};
use std::cell::Cell;

/// t, x, y, z, direction, parity, visited, stuck, pass.
pub type Job = [u64; 9];

// SAFETY: names and types are the header's, and no call keeps a pointer. Those that take a list
// are safe where pointer and length are a slice's of cells.
unsafe extern "C" {
    pub safe fn jj_update_link(u: &Mat, staple: &Mat, out: &mut Mat) -> u32;
    fn jj_overrelax_link(
        ext: &Four,
        coupling: f64,
        site: usize,
        mu: usize,
        links: *const Cell<f64>,
        n: usize,
        out: &mut Mat,
    ) -> u32;
    safe fn jj_open_overrelax(
        ext: &Four,
        coupling: f64,
        seed: u64,
        pass: &mut [u64; 1],
        direction: usize,
        parity: usize,
        out_job: &mut Job,
    ) -> u32;
    fn jj_frame_overrelax(job: &mut Job, size: usize, links: *const Cell<f64>, n: usize) -> u32;
    safe fn jj_finished(job: &Job, out: &mut [u32; 1]) -> u32;
}

pub fn update_link(u: &Mat, staple: &Mat) -> (u32, Mat) {
    with_room(|out| jj_update_link(u, staple, out))
}

pub fn overrelax_link(
    ext: &Four,
    coupling: f64,
    link: [usize; 2],
    links: &[Cell<f64>],
) -> (u32, Mat) {
    of_link(jj_overrelax_link, ext, coupling, link, links)
}

/// `jj_open_overrelax` with seed and pass of the plan: the job and the pass after it.
pub fn open_overrelax(
    ext: &Four,
    coupling: f64,
    [seed, pass]: [u64; 2],
    direction: usize,
    parity: usize,
) -> (u32, Job, u64) {
    let mut pass = [pass];
    let (refusal, job) =
        with_room(|job| jj_open_overrelax(ext, coupling, seed, &mut pass, direction, parity, job));
    (refusal, job, pass[0])
}

/// `jj_frame_overrelax` on a job by value: the job after it.
pub fn frame_overrelax(mut job: Job, size: usize, links: &[Cell<f64>]) -> (u32, Job) {
    // SAFETY: pointer and length are a slice's of cells.
    let refusal = unsafe { jj_frame_overrelax(&mut job, size, links.as_ptr(), links.len()) };
    (refusal, job)
}

pub fn finished(job: &Job) -> (u32, [u32; 1]) {
    with_room(|out| jj_finished(job, out))
}
