//! The wrapper's calls in the place of sage's: the same features through both.

use crate::cells::{same, Cell};
use crate::psm::{Peptides, Psm};
use oracle::alignment::Row;
use oracle::rng::Rng;
use oracle::run::{run, Fit};
use sage::database::PeptideIx;
use sage::peptide::Peptide;
use sage::scoring::Feature;
use zorkamai::{adapters, Alignment, Error, Predicted};

/// A batch of any family through sage's three calls and, the peptides' numbers moved apart, through the
/// adapters.
pub fn case(r: &mut Rng) -> Result<usize, String> {
    let batch = oracle::gen::run::any(r);
    let apart = r.pick(&[1, 7, 1_000, 1 << 20]);
    let table: Vec<(u32, Peptide)> =
        (0..).step_by(apart).zip(batch.peptides.iter().cloned()).collect();
    let psm = |row: &Row| {
        let peptide_idx = PeptideIx(row.peptide.0 * apart as u32);
        Psm(Feature { peptide_idx, ..row.feature() })
    };
    let mut ours: Vec<Psm> = batch.rows.iter().map(psm).collect();
    let peptides = Peptides(&table);

    let want = run(&batch);
    let records = adapters::global_alignment(&mut ours, batch.files).map_err(|e| e.to_string())?;
    same("records", records.iter().map(patterns).collect(), want.aligned.patterns())?;
    let times = adapters::predict_retention(&peptides, &mut ours);
    is_model("retention", times, &want.retention, want.retention_inexact)?;
    let mobilities = adapters::predict_mobility(&peptides, &mut ours);
    is_model("mobility", mobilities, &want.mobility, want.mobility_inexact)?;
    for (f, Psm(g)) in want.aligned.features.iter().zip(&ours) {
        same("aligned_rt", g.aligned_rt.pattern(), f.aligned_rt.written())?;
        same("predicted_rt", g.predicted_rt.pattern(), f.predicted_rt.written())?;
        same("delta_rt_model", g.delta_rt_model.pattern(), f.delta_rt_model.written())?;
        same("predicted_ims", g.predicted_ims.pattern(), f.predicted_ims.written())?;
        same("delta_ims_model", g.delta_ims_model.pattern(), f.delta_ims_model.written())?;
    }
    Ok(3)
}

/// A record's fields.
fn patterns(a: &Alignment) -> [u64; 7] {
    let [max_rt, slope, intercept] = [a.max_rt, a.slope, a.intercept].map(Cell::pattern);
    let exact = [a.max_rt_exact, a.slope_exact, a.intercept_exact];
    let [max_rt_exact, slope_exact, intercept_exact] = exact.map(Cell::pattern);
    [max_rt, slope, intercept, a.used.pattern(), max_rt_exact, slope_exact, intercept_exact]
}

/// The model fits or fails as the Rust's does, and has so many predictions that are not exact.
fn is_model(
    what: &str,
    got: Result<Predicted, Error>,
    want: &Fit,
    inexact: usize,
) -> Result<(), String> {
    let number = match want {
        Fit::Solved { .. } => 0,
        Fit::NoTrainingRows => 8,
        Fit::NotSolved => 9,
    };
    let got = got.map_or_else(|e| (e.number(), 0), |model| (0, model.inexact));
    same(&format!("{what}'s number and inexact"), got, (number, inexact))
}
