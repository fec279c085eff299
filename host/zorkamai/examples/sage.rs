//! A host with rows and peptides of its own, as sage has: its calls keep their shape.
//!
//!     ../../.ci/staticlib zorkamai && cargo run --example sage

use std::collections::HashMap;
use zorkamai::adapters::{
    global_alignment, predict_mobility, predict_retention, Database, Feature,
};

/// The host's row.
#[derive(Clone, Default)]
struct Psm {
    peptide_idx: u32,
    file_id: usize,
    label: i32,
    spectrum_q: f32,
    rt: f32,
    charge: u8,
    ims: f32,
    aligned_rt: f32,
    predicted_rt: f32,
    delta_rt_model: f32,
    predicted_ims: f32,
    delta_ims_model: f32,
}

impl Feature for Psm {
    fn file_id(&self) -> usize {
        self.file_id
    }
    fn peptide_idx(&self) -> u32 {
        self.peptide_idx
    }
    fn label(&self) -> i32 {
        self.label
    }
    fn spectrum_q(&self) -> f32 {
        self.spectrum_q
    }
    fn rt(&self) -> f32 {
        self.rt
    }
    fn charge(&self) -> u8 {
        self.charge
    }
    fn ims(&self) -> f32 {
        self.ims
    }
    fn aligned_rt(&self) -> f32 {
        self.aligned_rt
    }
    fn set_aligned_rt(&mut self, aligned_rt: f32) {
        self.aligned_rt = aligned_rt;
    }
    fn set_retention(&mut self, predicted_rt: f32, delta_rt_model: f32) {
        (self.predicted_rt, self.delta_rt_model) = (predicted_rt, delta_rt_model);
    }
    fn set_mobility(&mut self, predicted_ims: f32, delta_ims_model: f32) {
        (self.predicted_ims, self.delta_ims_model) = (predicted_ims, delta_ims_model);
    }
}

/// The host's peptides.
struct Peptides(HashMap<u32, (&'static [u8], f32)>);

impl Database for Peptides {
    fn sequence(&self, peptide_idx: u32) -> &[u8] {
        self.0[&peptide_idx].0
    }
    fn monoisotopic(&self, peptide_idx: u32) -> f32 {
        self.0[&peptide_idx].1
    }
}

fn main() -> Result<(), zorkamai::Error> {
    // Three peptides in two files; the second file runs twice as long.
    let db = Peptides(HashMap::from([
        (700, (&b"ACDK"[..], 435.18)),
        (900, (&b"PEPTIDER"[..], 955.46)),
        (12_000_000, (&b"LLVVAGGK"[..], 755.49)),
    ]));
    let psm = |file_id: usize, peptide_idx: u32, rt: f32| Psm {
        file_id,
        peptide_idx,
        rt,
        label: 1,
        spectrum_q: 0.001,
        charge: 2,
        ims: 0.7 + rt / 1000.0,
        ..Default::default()
    };
    let mut features = vec![
        psm(0, 700, 10.0),
        psm(0, 900, 20.0),
        psm(0, 12_000_000, 35.0),
        psm(1, 700, 20.0),
        psm(1, 900, 40.0),
        psm(1, 12_000_000, 70.0),
    ];

    let alignments = global_alignment(&mut features, 2)?;
    let retention = predict_retention(&db, &mut features)?;
    let mobility = predict_mobility(&db, &mut features)?;

    for (file, a) in alignments.iter().enumerate() {
        let (m, b) = (a.slope, a.intercept);
        println!("file {file}: longest {}, y = {m}x + {b} by {} peptides", a.max_rt, a.used);
        println!(
            "file {file}: max_rt_exact {}, slope_exact {}, intercept_exact {}",
            a.max_rt_exact, a.slope_exact, a.intercept_exact
        );
    }
    for f in &features {
        println!(
            "file {} peptide {}: time {} aligned {} predicted {} (off by {}), mobility {} predicted {} (off by {})",
            f.file_id,
            f.peptide_idx,
            f.rt,
            f.aligned_rt,
            f.predicted_rt,
            f.delta_rt_model,
            f.ims,
            f.predicted_ims,
            f.delta_ims_model,
        );
    }
    for (name, model) in [("retention", &retention), ("mobility", &mobility)] {
        let (fit, rows) = (&model.fit, model.predicted.len());
        println!("{name}: r2 {} on {} rows, inexact {} of {rows}", fit.r2, fit.n, model.inexact);
    }
    assert!(features[..3].iter().zip(&features[3..]).all(|(a, b)| a.aligned_rt == b.aligned_rt));
    features[0].file_id = 9;
    println!("refused: {}", global_alignment(&mut features, 2).unwrap_err());
    Ok(())
}
