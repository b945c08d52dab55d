// Not the reference's: its state is private, and a comparison reads it and chooses it.
impl Rng {
    pub fn of_state(s: [u64; 4]) -> Self {
        Self { s }
    }

    pub fn state(&self) -> [u64; 4] {
        self.s
    }
}
