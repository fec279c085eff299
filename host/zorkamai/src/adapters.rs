//! In the place of sage's own calls: rows that are structs of the host's go in and out through
//! [`Feature`], and its peptides through [`Database`], under sage's names.
//!
//! A host's peptide numbers may be large and far apart: those that occur are numbered anew from 0 in their
//! order, which changes no result. So rows outside the training set may bring and take peptides, and nothing
//! else moves, as long as the file count and the files' longest times hold (README, the rule about edits). Between
//! the three calls nobody may write what is read of the rows.
//!
//! `examples/sage.rs` has a host with such a struct.

use crate::{align, mobility, retention, Alignment, Error, PeptideTable, Predicted, Row, Rows};

#[cfg(test)]
mod tests;

/// A row of the host: what is read of it, and what is written to it.
pub trait Feature {
    /// The file's number, from 0.
    fn file_id(&self) -> usize;
    /// The peptide's number in the host's [`Database`].
    fn peptide_idx(&self) -> u32;
    /// 1 for a target. A row trains if its label is 1 and its q at most 0.01.
    fn label(&self) -> i32;
    /// The spectrum's q.
    fn spectrum_q(&self) -> f32;
    /// The retention time.
    fn rt(&self) -> f32;
    /// The precursor's charge.
    fn charge(&self) -> u8;
    /// The ion mobility.
    fn ims(&self) -> f32;
    /// The aligned time that [`global_alignment`] wrote, for [`predict_retention`].
    fn aligned_rt(&self) -> f32;
    /// Takes the aligned time.
    fn set_aligned_rt(&mut self, aligned_rt: f32);
    /// Takes the predicted time and its distance from the aligned time.
    fn set_retention(&mut self, predicted_rt: f32, delta_rt_model: f32);
    /// Takes the predicted mobility and its distance from the mobility.
    fn set_mobility(&mut self, predicted_ims: f32, delta_ims_model: f32);
}

/// The host's peptides (sage's `IndexedDatabase`).
pub trait Database {
    /// The peptide's letters, A to Z.
    fn sequence(&self, peptide_idx: u32) -> &[u8];
    /// The peptide's mass.
    fn monoisotopic(&self, peptide_idx: u32) -> f32;
}

/// Sage's `global_alignment`: writes each row's aligned time, and gives a record for each file, with what sage's has
/// not: the number of peptides that carry its line, and whether its numbers are exact.
pub fn global_alignment<F: Feature>(
    features: &mut [F],
    n_files: usize,
) -> Result<Vec<Alignment>, Error> {
    let (rows, peptides) = rows(features);
    let aligned = align(&rows, n_files, peptides.len())?;
    for (feature, &time) in features.iter_mut().zip(&aligned.aligned) {
        feature.set_aligned_rt(time);
    }
    Ok(aligned.records)
}

/// Sage's `predict` of the retention model, on the aligned times that the rows hold: writes each row's
/// prediction and error if the model fits, and gives them with the model. Where sage answers `None`, this says why.
pub fn predict_retention<D: Database, F: Feature>(
    db: &D,
    features: &mut [F],
) -> Result<Predicted, Error> {
    let (rows, peptides) = rows(features);
    let aligned: Vec<f32> = features.iter().map(F::aligned_rt).collect();
    let model = retention::predict(&rows, &aligned, &table(db, &peptides))?;
    for (i, feature) in features.iter_mut().enumerate() {
        feature.set_retention(model.predicted[i], model.error[i]);
    }
    Ok(model)
}

/// Sage's `predict` of the mobility model: as [`predict_retention`].
pub fn predict_mobility<D: Database, F: Feature>(
    db: &D,
    features: &mut [F],
) -> Result<Predicted, Error> {
    let (rows, peptides) = rows(features);
    let model = mobility::predict(&rows, &table(db, &peptides))?;
    for (i, feature) in features.iter_mut().enumerate() {
        feature.set_mobility(model.predicted[i], model.error[i]);
    }
    Ok(model)
}

/// The host's peptides of these numbers.
fn table<D: Database>(db: &D, peptides: &[u32]) -> PeptideTable {
    let mut table = PeptideTable::default();
    for &peptide in peptides {
        table.push(db.sequence(peptide), db.monoisotopic(peptide));
    }
    table
}

/// The rows with the peptides numbered from 0 in their order, and the host's number of each.
fn rows<F: Feature>(features: &[F]) -> (Rows, Vec<u32>) {
    let mut peptides: Vec<u32> = features.iter().map(F::peptide_idx).collect();
    peptides.sort_unstable();
    peptides.dedup();
    let row = |f: &F| Row {
        // A number that no u32 holds is not below any number of files.
        file: f.file_id().try_into().unwrap_or(u32::MAX),
        peptide: peptides.partition_point(|&p| p < f.peptide_idx()) as u32,
        label: f.label(),
        q: f.spectrum_q(),
        rt: f.rt(),
        charge: f.charge(),
        mobility: f.ims(),
    };
    (features.iter().map(row).collect(), peptides)
}
