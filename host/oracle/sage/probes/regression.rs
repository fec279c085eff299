
// Appended to the copy by the oracle's build: reads what the regression keeps to itself.
/// The normal equations of the rows that were added, summed by the fit's own step.
pub struct ProbeSums(Acc);

impl ProbeSums {
    /// Of no row.
    pub fn zero(d: usize) -> ProbeSums {
        ProbeSums(Acc::zero(d))
    }

    /// With one row more.
    pub fn add_row(&mut self, row: &[f64], y: f64) {
        self.0.add_row(row, y);
    }

    /// The matrix, by rows, and the right side.
    pub fn equations(&self) -> (&[f64], &[f64]) {
        (&self.0.cov, &self.0.b)
    }
}
