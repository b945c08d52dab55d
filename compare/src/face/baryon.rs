//! Staircases, paths, loops and their accumulator. Lists are cells, as the lattice's are; a step is a
//! byte, 2 * axis + (1 where forward).

use super::{Four, Mat, with_room};
use std::cell::Cell;

/// Of a quark: x, y, z.
pub type Offset = [i32; 3];
/// Of three quarks, one after the other.
pub type Offsets = [i32; 9];
/// nx, ny, nz, time length, density count, samples.
pub type Counts = [u64; 6];
/// Of the loops, and of up to four densities.
pub type Sums = [f64; 5];

// SAFETY: names and types are the header's, and no call keeps a pointer. Those that take a list
// are safe where each pointer and its length are a slice's of cells.
unsafe extern "C" {
    fn jj_staircase(
        d: &Offset,
        steps: *const Cell<u8>,
        room: usize,
        out_count: &mut [u32; 1],
    ) -> u32;
    fn jj_path(
        ext: &Four,
        site: usize,
        links: *const Cell<f64>,
        n: usize,
        steps: *const Cell<u8>,
        count: usize,
        out: &mut Mat,
        out_end: &mut [usize; 1],
    ) -> u32;
    fn jj_time_line(
        ext: &Four,
        site: usize,
        t_len: usize,
        links: *const Cell<f64>,
        n: usize,
        out: &mut Mat,
        out_end: &mut [usize; 1],
    ) -> u32;
    fn jj_baryon_loop(
        ext: &Four,
        site: usize,
        offsets: &Offsets,
        t_len: usize,
        links: *const Cell<f64>,
        n: usize,
        out: &mut [f64; 1],
    ) -> u32;
    fn jj_new(
        grid_ext: &[usize; 3],
        offsets: &Offsets,
        t_len: usize,
        densities: u32,
        grid: *const Cell<f64>,
        g: usize,
        out_counts: &mut Counts,
        out_sums: &mut Sums,
    ) -> u32;
    fn jj_add(
        counts: &mut Counts,
        offsets: &Offsets,
        sums: &mut Sums,
        ext: &Four,
        densities: u32,
        links: *const Cell<f64>,
        n: usize,
        density: *const Cell<f64>,
        m: usize,
        grid: *const Cell<f64>,
        g: usize,
        scratch: *const Cell<f64>,
        s: usize,
    ) -> u32;
    safe fn jj_mean_loop(
        counts: &Counts,
        offsets: &Offsets,
        sums: &Sums,
        out: &mut [f64; 1],
    ) -> u32;
    fn jj_correlation(
        counts: &Counts,
        offsets: &Offsets,
        sums: &Sums,
        density: u32,
        grid: *const Cell<f64>,
        g: usize,
        out_list: *const Cell<f64>,
        m: usize,
    ) -> u32;
}

/// An accumulator as the header has it.
#[derive(Clone, Copy)]
pub struct Accumulator {
    pub counts: Counts,
    pub offsets: Offsets,
    pub sums: Sums,
}

pub fn staircase(d: &Offset, steps: &[Cell<u8>]) -> (u32, [u32; 1]) {
    // SAFETY: pointer and length are a slice's of cells.
    with_room(|out| unsafe { jj_staircase(d, steps.as_ptr(), steps.len(), out) })
}

/// The refusal number and the matrix, and where the path ends.
pub type Walked = ((u32, Mat), [usize; 1]);

pub fn path(ext: &Four, site: usize, links: &[Cell<f64>], steps: &[Cell<u8>]) -> Walked {
    let (links, n, steps, count) = (links.as_ptr(), links.len(), steps.as_ptr(), steps.len());
    with_room(|end| {
        // SAFETY: pointers and lengths are two slices' of cells.
        with_room(|out| unsafe { jj_path(ext, site, links, n, steps, count, out, end) })
    })
}

pub fn time_line(ext: &Four, site: usize, t_len: usize, links: &[Cell<f64>]) -> Walked {
    let (links, n) = (links.as_ptr(), links.len());
    with_room(|end| {
        // SAFETY: pointer and length are a slice's of cells.
        with_room(|out| unsafe { jj_time_line(ext, site, t_len, links, n, out, end) })
    })
}

pub fn baryon_loop(
    ext: &Four,
    site: usize,
    offsets: &Offsets,
    t_len: usize,
    links: &[Cell<f64>],
) -> (u32, [f64; 1]) {
    let (links, n) = (links.as_ptr(), links.len());
    // SAFETY: pointer and length are a slice's of cells.
    with_room(|out| unsafe { jj_baryon_loop(ext, site, offsets, t_len, links, n, out) })
}

/// `jj_new`: its counts and its sums.
pub fn new_accumulator(
    grid_ext: &[usize; 3],
    offsets: &Offsets,
    t_len: usize,
    densities: u32,
    grid: &[Cell<f64>],
) -> ((u32, Counts), Sums) {
    let (grid, g) = (grid.as_ptr(), grid.len());
    with_room(|sums| {
        // SAFETY: pointer and length are a slice's of cells.
        with_room(|counts| unsafe {
            jj_new(grid_ext, offsets, t_len, densities, grid, g, counts, sums)
        })
    })
}

/// `jj_add` on an accumulator by value: the accumulator after it.
pub fn add(
    mut to: Accumulator,
    ext: &Four,
    densities: u32,
    links: &[Cell<f64>],
    density: &[Cell<f64>],
    [grid, scratch]: [&[Cell<f64>]; 2],
) -> (u32, Accumulator) {
    // SAFETY: pointers and lengths are four slices' of cells.
    let refusal = unsafe {
        jj_add(
            &mut to.counts,
            &to.offsets,
            &mut to.sums,
            ext,
            densities,
            links.as_ptr(),
            links.len(),
            density.as_ptr(),
            density.len(),
            grid.as_ptr(),
            grid.len(),
            scratch.as_ptr(),
            scratch.len(),
        )
    };
    (refusal, to)
}

pub fn mean_loop(of: &Accumulator) -> (u32, [f64; 1]) {
    with_room(|out| jj_mean_loop(&of.counts, &of.offsets, &of.sums, out))
}

pub fn correlation(
    of: &Accumulator,
    density: u32,
    grid: &[Cell<f64>],
    out_list: &[Cell<f64>],
) -> u32 {
    let (grid, g, out_list, m) = (grid.as_ptr(), grid.len(), out_list.as_ptr(), out_list.len());
    let Accumulator {
        counts,
        offsets,
        sums,
    } = of;
    // SAFETY: pointers and lengths are two slices' of cells.
    unsafe { jj_correlation(counts, offsets, sums, density, grid, g, out_list, m) }
}
