// Not the reference's: an accumulator's grid, sums and samples are private, and a comparison reads
// them and chooses them.
impl FluxAccumulator {
    pub fn with(self, ws: Vec<Vec<f64>>, s: Vec<f64>, w: f64, samples: f64) -> Self {
        Self {
            ws,
            s,
            w,
            samples,
            ..self
        }
    }

    pub fn grid(&self) -> Vec<f64> {
        self.ws.concat()
    }

    /// Of the loops, and of each density.
    pub fn sums(&self) -> (f64, &[f64]) {
        (self.w, &self.s)
    }

    pub fn samples(&self) -> f64 {
        self.samples
    }
}
