//! Stand-in for sage's scoring.rs: what the alignment and the models read and write of a row.

use crate::database::PeptideIx;

/// A row, the fields under sage's names and types.
#[derive(Clone, Debug)]
pub struct Feature {
    pub peptide_idx: PeptideIx,
    pub file_id: usize,
    pub label: i32,
    pub charge: u8,
    pub rt: f32,
    pub aligned_rt: f32,
    pub predicted_rt: f32,
    pub delta_rt_model: f32,
    pub ims: f32,
    pub predicted_ims: f32,
    pub delta_ims_model: f32,
    pub spectrum_q: f32,
}
