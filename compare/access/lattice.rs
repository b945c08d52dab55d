// Not the reference's: its lists of sites by parity, its count of passes and its update of one link
// are private, and a comparison reads and calls them.
impl Su3Lattice {
    pub fn sites_of(&self, parity: usize) -> &[usize] {
        &self.parity_sites[parity]
    }

    pub fn pass(&self) -> u64 {
        self.pass
    }
}

/// Overrelaxation does not read the coupling.
pub fn overrelaxed(u: Su3, a: &Su3, rng: &mut Rng) -> Su3 {
    update_link(u, a, 0.0, Update::Overrelax, rng)
}
