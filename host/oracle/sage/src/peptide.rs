//! Stand-in for sage's peptide.rs: what the models read of a peptide.

/// Letters and mass of a peptide.
#[derive(Clone, Debug)]
pub struct Peptide {
    pub sequence: Vec<u8>,
    pub monoisotopic: f32,
}
