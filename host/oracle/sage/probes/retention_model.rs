
// Appended to the copy by the oracle's build: reads what the model keeps to itself.
impl RetentionModel {
    /// The coefficients.
    pub fn probe_beta(&self) -> &[f64] {
        &self.beta
    }

    /// The column of each letter from A to Z.
    pub fn probe_map(&self) -> &[usize; 26] {
        &self.map
    }

    /// The design row of a peptide.
    pub fn probe_embed(&self, peptide: &Peptide) -> Vec<f64> {
        Self::embed(peptide, &self.map).to_vec()
    }
}
