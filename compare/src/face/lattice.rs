//! The lattice.
//!
//! Lists are lent as cells, those for reading too: were the library to write where it must not, a
//! comparison after the call has to be able to see it. Each wrapper gives the refusal number and
//! the answer.

use super::{Complex, Mat, with_room};
use std::cell::Cell;

/// t, x, y, z: extents or coordinates.
pub type Four = [usize; 4];
/// Where a list of numbers begins.
pub(super) type List = *const Cell<f64>;

// SAFETY: names and types are the header's, and no call keeps a pointer. Those that take a list
// are safe where pointer and length are a slice's of cells.
unsafe extern "C" {
    safe fn jj_n_sites(ext: &Four, out: &mut [usize; 1]) -> u32;
    safe fn jj_coords(ext: &Four, site: usize, out: &mut Four) -> u32;
    safe fn jj_index(ext: &Four, c: &Four, out: &mut [usize; 1]) -> u32;
    safe fn jj_parity(ext: &Four, site: usize, out: &mut [usize; 1]) -> u32;
    safe fn jj_fwd(ext: &Four, site: usize, mu: usize, out: &mut [usize; 1]) -> u32;
    safe fn jj_bwd(ext: &Four, site: usize, mu: usize, out: &mut [usize; 1]) -> u32;
    fn jj_cold(ext: &Four, coupling: f64, seed: u64, links: *const Cell<f64>, n: usize) -> u32;
    fn jj_plaquette(
        ext: &Four,
        site: usize,
        mu: usize,
        nu: usize,
        links: *const Cell<f64>,
        n: usize,
        out: &mut Mat,
    ) -> u32;
    fn jj_staple(
        ext: &Four,
        coupling: f64,
        site: usize,
        mu: usize,
        links: *const Cell<f64>,
        n: usize,
        out: &mut Mat,
    ) -> u32;
    fn jj_average_plaquette(
        ext: &Four,
        links: *const Cell<f64>,
        n: usize,
        out: &mut [f64; 1],
    ) -> u32;
    fn jj_action(
        ext: &Four,
        coupling: f64,
        links: *const Cell<f64>,
        n: usize,
        out: &mut [f64; 1],
    ) -> u32;
    fn jj_polyakov_loop(ext: &Four, links: *const Cell<f64>, n: usize, out: &mut Complex) -> u32;
    fn jj_link_check(
        ext: &Four,
        links: *const Cell<f64>,
        n: usize,
        found: *const Cell<u32>,
        room: usize,
        out_count: &mut [u32; 1],
    ) -> u32;
}

pub fn n_sites(ext: &Four) -> (u32, [usize; 1]) {
    with_room(|out| jj_n_sites(ext, out))
}

pub fn coords(ext: &Four, site: usize) -> (u32, Four) {
    with_room(|out| jj_coords(ext, site, out))
}

pub fn index(ext: &Four, c: &Four) -> (u32, [usize; 1]) {
    with_room(|out| jj_index(ext, c, out))
}

pub fn parity(ext: &Four, site: usize) -> (u32, [usize; 1]) {
    with_room(|out| jj_parity(ext, site, out))
}

pub fn fwd(ext: &Four, site: usize, mu: usize) -> (u32, [usize; 1]) {
    with_room(|out| jj_fwd(ext, site, mu, out))
}

pub fn bwd(ext: &Four, site: usize, mu: usize) -> (u32, [usize; 1]) {
    with_room(|out| jj_bwd(ext, site, mu, out))
}

pub fn cold(ext: &Four, coupling: f64, seed: u64, links: &[Cell<f64>]) -> u32 {
    // SAFETY: pointer and length are a slice's of cells.
    unsafe { jj_cold(ext, coupling, seed, links.as_ptr(), links.len()) }
}

/// A call on a site and a plane.
type OfPlane = unsafe extern "C" fn(&Four, usize, usize, usize, List, usize, &mut Mat) -> u32;

pub(super) fn of_plane(
    call: OfPlane,
    ext: &Four,
    site: usize,
    [mu, nu]: [usize; 2],
    links: &[Cell<f64>],
) -> (u32, Mat) {
    // SAFETY: pointer and length are a slice's of cells.
    with_room(|out| unsafe { call(ext, site, mu, nu, links.as_ptr(), links.len(), out) })
}

/// A call on a link, with the plan's coupling.
type OfLink = unsafe extern "C" fn(&Four, f64, usize, usize, List, usize, &mut Mat) -> u32;

pub(super) fn of_link(
    call: OfLink,
    ext: &Four,
    coupling: f64,
    [site, mu]: [usize; 2],
    links: &[Cell<f64>],
) -> (u32, Mat) {
    // SAFETY: pointer and length are a slice's of cells.
    with_room(|out| unsafe { call(ext, coupling, site, mu, links.as_ptr(), links.len(), out) })
}

pub fn plaquette(ext: &Four, site: usize, plane: [usize; 2], links: &[Cell<f64>]) -> (u32, Mat) {
    of_plane(jj_plaquette, ext, site, plane, links)
}

pub fn staple(ext: &Four, coupling: f64, link: [usize; 2], links: &[Cell<f64>]) -> (u32, Mat) {
    of_link(jj_staple, ext, coupling, link, links)
}

pub fn average_plaquette(ext: &Four, links: &[Cell<f64>]) -> (u32, [f64; 1]) {
    // SAFETY: pointer and length are a slice's of cells.
    with_room(|out| unsafe { jj_average_plaquette(ext, links.as_ptr(), links.len(), out) })
}

pub fn action(ext: &Four, coupling: f64, links: &[Cell<f64>]) -> (u32, [f64; 1]) {
    // SAFETY: pointer and length are a slice's of cells.
    with_room(|out| unsafe { jj_action(ext, coupling, links.as_ptr(), links.len(), out) })
}

pub fn polyakov_loop(ext: &Four, links: &[Cell<f64>]) -> (u32, Complex) {
    // SAFETY: pointer and length are a slice's of cells.
    with_room(|out| unsafe { jj_polyakov_loop(ext, links.as_ptr(), links.len(), out) })
}

pub fn link_check(ext: &Four, links: &[Cell<f64>], found: &[Cell<u32>]) -> (u32, [u32; 1]) {
    let (links, n, found, room) = (links.as_ptr(), links.len(), found.as_ptr(), found.len());
    // SAFETY: pointers and lengths are two slices' of cells.
    with_room(|out| unsafe { jj_link_check(ext, links, n, found, room, out) })
}
