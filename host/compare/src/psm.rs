//! A host's rows and peptides, as sage has them, for the adapters. `host/oracle`'s test of edits compiles this
//! file too.

use sage::peptide::Peptide;
use sage::scoring::Feature;
use zorkamai::adapters;

/// Sage's row, with the host's peptide number.
pub struct Psm(pub Feature);

impl adapters::Feature for Psm {
    fn file_id(&self) -> usize {
        self.0.file_id
    }
    fn peptide_idx(&self) -> u32 {
        self.0.peptide_idx.0
    }
    fn label(&self) -> i32 {
        self.0.label
    }
    fn spectrum_q(&self) -> f32 {
        self.0.spectrum_q
    }
    fn rt(&self) -> f32 {
        self.0.rt
    }
    fn charge(&self) -> u8 {
        self.0.charge
    }
    fn ims(&self) -> f32 {
        self.0.ims
    }
    fn aligned_rt(&self) -> f32 {
        self.0.aligned_rt
    }
    fn set_aligned_rt(&mut self, aligned_rt: f32) {
        self.0.aligned_rt = aligned_rt;
    }
    fn set_retention(&mut self, predicted_rt: f32, delta_rt_model: f32) {
        (self.0.predicted_rt, self.0.delta_rt_model) = (predicted_rt, delta_rt_model);
    }
    fn set_mobility(&mut self, predicted_ims: f32, delta_ims_model: f32) {
        (self.0.predicted_ims, self.0.delta_ims_model) = (predicted_ims, delta_ims_model);
    }
}

/// Peptides with the host's numbers, which rise.
pub struct Peptides<'a>(pub &'a [(u32, Peptide)]);

impl Peptides<'_> {
    fn of(&self, number: u32) -> &Peptide {
        let place = self.0.binary_search_by_key(&number, |(number, _)| *number);
        &self.0[place.expect("a peptide of the host")].1
    }
}

impl adapters::Database for Peptides<'_> {
    fn sequence(&self, peptide_idx: u32) -> &[u8] {
        &self.of(peptide_idx).sequence
    }
    fn monoisotopic(&self, peptide_idx: u32) -> f32 {
        self.of(peptide_idx).monoisotopic
    }
}
