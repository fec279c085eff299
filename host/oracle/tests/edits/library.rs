//! The library's answers: by one call, by three calls, and by the adapters.

use crate::answer::Answer;
use crate::calls::{self, Input, Model};
use crate::psm::{Peptides, Psm};
use oracle::alignment::Row;
use oracle::gen::pools::{any32, any64};
use oracle::rng::Rng;
use oracle::run::Batch;
use sage::peptide::Peptide;
use sage::scoring::Feature;
use zorkamai::adapters::{global_alignment, predict_mobility, predict_retention};
use zorkamai::{mobility, retention, Aligned, Alignment, Error, Fit, Predicted, Run};

/// By one call of `run`.
pub fn one_call(batch: &Batch) -> Answer {
    let Input { rows, table, .. } = Input::new(batch, vec![]);
    Answer::of(&zorkamai::run(&rows, batch.files, &table).expect("a run is accepted"))
}

/// Both ends by three calls each. The workspaces have no cell more than needed, some or many, by turns, so that
/// those of an end differ in length, and those of the same call at both ends do.
pub fn both_by_three_calls(r: &mut Rng, ends: &[Batch; 2]) -> [Answer; 2] {
    let cells = [0, r.range(1, 9), r.range(100, 5_000)];
    let turn = r.below(3);
    let more = |end: usize| [0, 1, 2].map(|call| cells[(turn + end + call) % 3]);
    [0, 1].map(|end| three_calls(r, &ends[end], more(end)))
}

/// By the three calls, each with a workspace of its own that has so many cells more than needed.
pub fn three_calls(r: &mut Rng, batch: &Batch, more: [usize; 3]) -> Answer {
    with_times(r, batch, more, |aligned| aligned.to_vec())
}

/// As `three_calls`, with retention's call on these times in the place of those that the alignment wrote.
pub fn with_times(
    r: &mut Rng,
    batch: &Batch,
    more: [usize; 3],
    times: impl Fn(&[f32]) -> Vec<f32>,
) -> Answer {
    let mut input = Input::new(batch, vec![]);
    let aligned = align(r, &input, batch.files, more[0]);
    input.aligned = times(&aligned.aligned);
    let room = (retention::WORKSPACE + more[1], retention::COLUMNS);
    let retention = predict(r, Model::Retention, &input, room);
    let room = (mobility::WORKSPACE + more[2], mobility::COLUMNS);
    let mobility = predict(r, Model::Mobility, &input, room);
    Answer::of(&Run { aligned, retention, mobility })
}

/// Cells of any content, NaNs too.
fn doubles(r: &mut Rng, n: usize) -> Vec<f64> {
    (0..n).map(|_| f64::from_bits(any64(r))).collect()
}

/// Counts of any content, now and then some more than so many.
fn counts(r: &mut Rng, n: usize) -> Vec<u32> {
    let n = if r.one_in(3) { n + r.range(1, 5) } else { n };
    (0..n).map(|_| any32(r)).collect()
}

/// The same of floats, NaNs too.
fn floats(r: &mut Rng, n: usize) -> Vec<f32> {
    counts(r, n).into_iter().map(f32::from_bits).collect()
}

/// The same of flags.
fn flags(r: &mut Rng, n: usize) -> Vec<bool> {
    counts(r, n).into_iter().map(|n| n % 2 == 1).collect()
}

fn align(r: &mut Rng, input: &Input, files: usize, more: usize) -> Aligned {
    let (rows, peptides) = (&input.rows, input.table.len());
    let mut workspace = doubles(r, peptides * files + more);
    let [mut max_rt, mut slope, mut intercept] = [(); 3].map(|_| floats(r, files));
    let mut used = counts(r, files);
    let [mut max_rt_exact, mut slope_exact, mut intercept_exact] = [(); 3].map(|_| flags(r, files));
    let mut aligned = floats(r, rows.len());
    let records = calls::Records {
        lines: [&mut max_rt, &mut slope, &mut intercept],
        used: &mut used,
        exact: [&mut max_rt_exact, &mut slope_exact, &mut intercept_exact],
    };
    let status = calls::align(rows, files, peptides, &mut workspace, records, &mut aligned);
    assert_eq!(status, 0, "an alignment is accepted");
    aligned.truncate(rows.len());
    let record = |i: usize| Alignment {
        max_rt: max_rt[i],
        slope: slope[i],
        intercept: intercept[i],
        used: used[i],
        max_rt_exact: max_rt_exact[i],
        slope_exact: slope_exact[i],
        intercept_exact: intercept_exact[i],
    };
    Aligned { records: (0..files).map(record).collect(), aligned }
}

/// A model's call with a workspace of so many cells and so many coefficients, now and then more of those.
fn predict(
    r: &mut Rng,
    model: Model,
    input: &Input,
    (cells, columns): (usize, usize),
) -> Result<Predicted, Error> {
    let n = input.rows.len();
    let more = if r.one_in(3) { r.range(1, 5) } else { 0 };
    let (mut workspace, mut beta) = (doubles(r, cells), doubles(r, columns + more));
    let (mut predicted, mut error) = (floats(r, n), floats(r, n));
    let answer = input.predict(model, &mut workspace, &mut beta, &mut predicted, &mut error);
    beta.truncate(columns);
    predicted.truncate(n);
    error.truncate(n);
    match answer.status {
        0 => {
            let fit = Fit { ridge: answer.ridge, r2: answer.r2, n: answer.n as usize, beta };
            Ok(Predicted { fit, predicted, error, inexact: answer.inexact as usize })
        }
        8 => Err(Error::NoTrainingRow),
        9 => Err(Error::NotSolved),
        number => panic!("{model:?} is refused with {number}"),
    }
}

/// By the adapters, on rows that have the host's peptide numbers, whatever the rows hold of what is written.
pub fn adapted(r: &mut Rng, files: usize, table: &[(u32, Peptide)], rows: &[Row]) -> Answer {
    let any = |r: &mut Rng| f32::from_bits(any32(r));
    let psm = |row: &Row| {
        Psm(Feature {
            aligned_rt: any(r),
            predicted_rt: any(r),
            delta_rt_model: any(r),
            predicted_ims: any(r),
            delta_ims_model: any(r),
            ..row.feature()
        })
    };
    let mut psms: Vec<Psm> = rows.iter().map(psm).collect();
    let peptides = Peptides(table);
    let records = global_alignment(&mut psms, files).expect("an alignment is accepted");
    let retention = predict_retention(&peptides, &mut psms);
    let mobility = predict_mobility(&peptides, &mut psms);
    let column = |cell: fn(&Feature) -> f32| psms.iter().map(|psm| cell(&psm.0)).collect();
    let written = |model: Result<Predicted, Error>, predicted, error| {
        Ok(Predicted { predicted: column(predicted), error: column(error), ..model? })
    };
    Answer::of(&Run {
        aligned: Aligned { records, aligned: column(|f| f.aligned_rt) },
        retention: written(retention, |f| f.predicted_rt, |f| f.delta_rt_model),
        mobility: written(mobility, |f| f.predicted_ims, |f| f.delta_ims_model),
    })
}
