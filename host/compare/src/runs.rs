//! Whole runs, and damaged calls of them.

use crate::align::{flags, holds_aligned};
use crate::calls::Input;
use crate::cells::{same, Output};
use crate::models::{broken, holds_beta, holds_column, is_fit, shorter, Cut};
use crate::solve::only;
use oracle::rng::Rng;
use oracle::run::{run, Batch, Run};
use zorkamai::{mobility, raw, retention};

/// A batch of any family, run, and each way to damage the call.
pub fn case(r: &mut Rng) -> Result<usize, String> {
    let batch = oracle::gen::run::any(r);
    let want = run(&batch);
    let input = Input::new(&batch, want.aligned.times());
    let mut out = Outputs::new(r, &batch);
    accepted(&batch, &input, &want, &mut out)?;
    Ok(1 + damaged(r, &batch, &input, &mut out)?)
}

/// The slices that a run writes: the work room and both models' coefficients; the lines, the aligned times and
/// both models' predictions and errors; the numbers of kept peptides; the flags.
pub struct Outputs {
    doubles: [Output<f64>; 3],
    floats: [Output<f32>; 8],
    used: Output<u32>,
    exact: [Output<bool>; 3],
}

impl Outputs {
    pub fn new(r: &mut Rng, batch: &Batch) -> Outputs {
        let (files, rows) = (batch.files, batch.rows.len());
        let cells = (batch.peptides.len() * files).max(mobility::WORKSPACE);
        let mut float = |name, n| Output::new(r, name, n);
        let floats = [
            float("max_rt", files),
            float("slope", files),
            float("intercept", files),
            float("aligned", rows),
            float("retention_predicted", rows),
            float("retention_error", rows),
            float("mobility_predicted", rows),
            float("mobility_error", rows),
        ];
        let doubles = [
            Output::new(r, "workspace", cells),
            Output::new(r, "retention_beta", retention::COLUMNS),
            Output::new(r, "mobility_beta", mobility::COLUMNS),
        ];
        Outputs { doubles, floats, used: Output::new(r, "used", files), exact: flags(r, files) }
    }

    fn call(&mut self, i: &Input, files: usize) -> raw::RunReport {
        let [work, beta, beta2] = &mut self.doubles;
        let [max_rt, slope, intercept, aligned, x, e, x2, e2] = &mut self.floats;
        let [max_rt_exact, slope_exact, intercept_exact] = &mut self.exact;
        raw::run(
            &i.rows.file,
            &i.rows.peptide,
            &i.rows.label,
            &i.rows.q,
            &i.rows.rt,
            &i.rows.charge,
            &i.rows.mobility,
            files,
            &i.table.letters,
            &i.table.offsets,
            &i.table.masses,
            &i.table.logs,
            &mut work.now,
            &mut max_rt.now,
            &mut slope.now,
            &mut intercept.now,
            &mut self.used.now,
            &mut max_rt_exact.now,
            &mut slope_exact.now,
            &mut intercept_exact.now,
            &mut aligned.now,
            &mut beta.now,
            &mut x.now,
            &mut e.now,
            &mut beta2.now,
            &mut x2.now,
            &mut e2.now,
        )
    }

    fn reset(&mut self) {
        self.doubles.iter_mut().for_each(Output::reset);
        self.floats.iter_mut().for_each(Output::reset);
        self.used.reset();
        self.exact.iter_mut().for_each(Output::reset);
    }

    fn unchanged(&self) -> Result<(), String> {
        self.doubles.iter().try_for_each(Output::unchanged)?;
        self.floats.iter().try_for_each(Output::unchanged)?;
        self.used.unchanged()?;
        self.exact.iter().try_for_each(Output::unchanged)
    }
}

/// The run is accepted and gives what the Rust gives.
pub fn accepted(batch: &Batch, input: &Input, want: &Run, out: &mut Outputs) -> Result<(), String> {
    let report = out.call(input, batch.files);
    same("status", report.status, 0)?;
    is_fit("retention", report.retention, &want.retention, want.retention_inexact)?;
    is_fit("mobility", report.mobility, &want.mobility, want.mobility_inexact)?;
    out.doubles[0].zeroed()?;
    let features = &want.aligned.features;
    holds_aligned(&out.floats[..4], &out.used, &out.exact, &want.aligned)?;
    holds_column(&out.floats[4], &want.retention, features, |f| f.predicted_rt)?;
    holds_column(&out.floats[5], &want.retention, features, |f| f.delta_rt_model)?;
    holds_column(&out.floats[6], &want.mobility, features, |f| f.predicted_ims)?;
    holds_column(&out.floats[7], &want.mobility, features, |f| f.delta_ims_model)?;
    holds_beta(&out.doubles[1], &want.retention)?;
    holds_beta(&out.doubles[2], &want.mobility)
}

/// A cut of each column that a run takes, and of the logs.
const CUTS: [Cut; 8] = [
    |i| i.rows.file.pop().is_some(),
    |i| i.rows.peptide.pop().is_some(),
    |i| i.rows.label.pop().is_some(),
    |i| i.rows.q.pop().is_some(),
    |i| i.rows.rt.pop().is_some(),
    |i| i.rows.charge.pop().is_some(),
    |i| i.rows.mobility.pop().is_some(),
    |i| i.table.logs.pop().is_some(),
];

/// The call is refused with this number, and changes nothing.
pub fn refused(out: &mut Outputs, input: &Input, files: usize, status: u8) -> Result<(), String> {
    let (retention, mobility) = (only(status), only(status));
    let want = raw::RunReport { status, retention, mobility };
    same("refusal", out.call(input, files), want)?;
    out.unchanged()
}

/// Each column one short, each slice one short, limits passed, broken tables and numbers out of range: refused, and
/// nothing changed.
fn damaged(r: &mut Rng, batch: &Batch, input: &Input, out: &mut Outputs) -> Result<usize, String> {
    out.reset();
    let mut calls = 0;
    let mut refuse = |out: &mut Outputs, input: &Input, files: usize, status: u8| {
        calls += 1;
        refused(out, input, files, status)
    };
    let files = batch.files;
    for damaged in shorter(input, &CUTS) {
        refuse(out, &damaged, files, 1)?;
    }
    for many in [0, 4_097, usize::MAX] {
        refuse(out, input, many, 2)?;
    }
    for (damaged, status) in broken(r, input) {
        refuse(out, &damaged, files, status)?;
    }
    if !input.rows.is_empty() {
        let mut damaged = input.clone();
        damaged.rows.file[r.below(input.rows.len())] = files as u32 + r.below(3) as u32;
        refuse(out, &damaged, files, 4)?;
    }
    Ok(calls + too_short(input, files, out)?)
}

/// Each slice one short.
pub fn too_short(input: &Input, files: usize, out: &mut Outputs) -> Result<usize, String> {
    let mut calls = 0;
    let mut refuse = |out: &mut Outputs| {
        calls += 1;
        refused(out, input, files, 3)
    };
    for i in 0..out.doubles.len() {
        let whole = out.doubles[i].cut();
        refuse(out)?;
        out.doubles[i] = whole;
    }
    for i in 0..out.floats.len() {
        if out.floats[i].needed() > 0 {
            let whole = out.floats[i].cut();
            refuse(out)?;
            out.floats[i] = whole;
        }
    }
    let whole = out.used.cut();
    refuse(out)?;
    out.used = whole;
    for i in 0..out.exact.len() {
        let whole = out.exact[i].cut();
        refuse(out)?;
        out.exact[i] = whole;
    }
    Ok(calls)
}
