//! Sage's Rust on an input, with a call for each phase. `all_cores` compiles this file too, over its own `sage`.

use crate::Model::{Mobility, Retention};
use crate::Phase;
use oracle::alignment::Row;
use oracle::run::Batch;
use sage::database::{IndexedDatabase, PeptideIx};
use sage::ml::gauss::Gauss;
use sage::ml::matrix::Matrix;
use sage::ml::mobility_model::{self, MobilityModel};
use sage::ml::retention_alignment::global_alignment;
use sage::ml::retention_model::{self, RetentionModel};
use sage::peptide::Peptide;
use sage::scoring::Feature;
use std::hint::black_box;

/// Solves a system of order `n` with one right column.
pub fn solve(left: &[f64], right: &[f64], n: usize) {
    let left = Matrix::new(left, n, n);
    black_box(Gauss::solve(left, Matrix::new(right, n, 1)));
}

/// A batch, as sage's features and database.
pub struct Rust {
    files: usize,
    pub db: IndexedDatabase,
    pub features: Vec<Feature>,
}

impl Rust {
    pub fn new(batch: &Batch) -> Rust {
        let peptides = batch
            .peptides
            .iter()
            .map(|p| Peptide { sequence: p.sequence.clone(), monoisotopic: p.monoisotopic });
        Rust {
            files: batch.files,
            db: IndexedDatabase { peptides: peptides.collect() },
            features: batch.rows.iter().map(feature).collect(),
        }
    }

    pub fn call(&mut self, phase: Phase) {
        let (db, features) = (&self.db, &mut self.features);
        assert!(match phase {
            Phase::Align => global_alignment(features, self.files).len() == self.files,
            Phase::Fit(Retention) => RetentionModel::fit(db, features).is_some(),
            Phase::Fit(Mobility) => MobilityModel::fit(db, features).is_some(),
            Phase::Predict(Retention) => retention_model::predict(db, features).is_some(),
            Phase::Predict(Mobility) => mobility_model::predict(db, features).is_some(),
        });
    }
}

/// A row as this `sage`'s feature, with 0 in what sage writes.
fn feature(row: &Row) -> Feature {
    Feature {
        peptide_idx: PeptideIx(row.peptide.0),
        file_id: row.file,
        label: row.label,
        charge: row.charge,
        rt: row.rt,
        ims: row.ims,
        spectrum_q: row.q,
        aligned_rt: 0.0,
        predicted_rt: 0.0,
        delta_rt_model: 0.0,
        predicted_ims: 0.0,
        delta_ims_model: 0.0,
    }
}
