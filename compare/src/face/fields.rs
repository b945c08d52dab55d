//! Smearing, the field strength and the densities. Lists are cells, as the lattice's are.

use super::lattice::{List, of_plane};
use super::{Four, Mat, with_room};
use std::cell::Cell;

/// Six matrices, one for each plane: 01, 02, 03, 12, 13, 23.
pub type Planes = [f64; 108];

// SAFETY: names and types are the header's, and no call keeps a pointer. They are safe where each
// pointer and its length are a slice's of cells.
unsafe extern "C" {
    fn jj_stout_link(
        ext: &Four,
        site: usize,
        mu: usize,
        rho: f64,
        links: *const Cell<f64>,
        n: usize,
        out: &mut Mat,
    ) -> u32;
    fn jj_stout_step(
        ext: &Four,
        rho: f64,
        links: *const Cell<f64>,
        n: usize,
        smeared: *const Cell<f64>,
        m: usize,
    ) -> u32;
    fn jj_clover_leaves(
        ext: &Four,
        site: usize,
        mu: usize,
        nu: usize,
        links: *const Cell<f64>,
        n: usize,
        out: &mut Mat,
    ) -> u32;
    fn jj_field_strength_at(
        ext: &Four,
        site: usize,
        links: *const Cell<f64>,
        n: usize,
        out: &mut Planes,
    ) -> u32;
    fn jj_action_density(
        ext: &Four,
        links: *const Cell<f64>,
        n: usize,
        density: *const Cell<f64>,
        m: usize,
    ) -> u32;
    fn jj_topological_charge_density(
        ext: &Four,
        links: *const Cell<f64>,
        n: usize,
        density: *const Cell<f64>,
        m: usize,
    ) -> u32;
    fn jj_electric_sq(
        ext: &Four,
        axis: usize,
        links: *const Cell<f64>,
        n: usize,
        density: *const Cell<f64>,
        m: usize,
    ) -> u32;
}

pub fn stout_link(ext: &Four, site: usize, mu: usize, rho: f64, links: &[Cell<f64>]) -> (u32, Mat) {
    let (links, n) = (links.as_ptr(), links.len());
    // SAFETY: pointer and length are a slice's of cells.
    with_room(|out| unsafe { jj_stout_link(ext, site, mu, rho, links, n, out) })
}

pub fn stout_step(ext: &Four, rho: f64, links: &[Cell<f64>], smeared: &[Cell<f64>]) -> u32 {
    let (links, n, smeared, m) = (links.as_ptr(), links.len(), smeared.as_ptr(), smeared.len());
    // SAFETY: pointers and lengths are two slices' of cells.
    unsafe { jj_stout_step(ext, rho, links, n, smeared, m) }
}

pub fn clover_leaves(
    ext: &Four,
    site: usize,
    plane: [usize; 2],
    links: &[Cell<f64>],
) -> (u32, Mat) {
    of_plane(jj_clover_leaves, ext, site, plane, links)
}

pub fn field_strength_at(ext: &Four, site: usize, links: &[Cell<f64>]) -> (u32, Planes) {
    // SAFETY: pointer and length are a slice's of cells.
    with_room(|out| unsafe { jj_field_strength_at(ext, site, links.as_ptr(), links.len(), out) })
}

/// A call that fills a density and takes nothing else.
type Density = unsafe extern "C" fn(&Four, List, usize, List, usize) -> u32;

fn fill(call: Density, ext: &Four, links: &[Cell<f64>], density: &[Cell<f64>]) -> u32 {
    let (links, n, density, m) = (links.as_ptr(), links.len(), density.as_ptr(), density.len());
    // SAFETY: pointers and lengths are two slices' of cells.
    unsafe { call(ext, links, n, density, m) }
}

pub fn action_density(ext: &Four, links: &[Cell<f64>], density: &[Cell<f64>]) -> u32 {
    fill(jj_action_density, ext, links, density)
}

pub fn topological_charge_density(ext: &Four, links: &[Cell<f64>], density: &[Cell<f64>]) -> u32 {
    fill(jj_topological_charge_density, ext, links, density)
}

pub fn electric_sq(ext: &Four, axis: usize, links: &[Cell<f64>], density: &[Cell<f64>]) -> u32 {
    let (links, n, density, m) = (links.as_ptr(), links.len(), density.as_ptr(), density.len());
    // SAFETY: pointers and lengths are two slices' of cells.
    unsafe { jj_electric_sq(ext, axis, links, n, density, m) }
}
