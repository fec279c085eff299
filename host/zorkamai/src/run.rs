//! A whole run over a batch.

use crate::alignment::{self, room, Aligned, FileColumns};
use crate::error::Call;
use crate::models::Predicted;
use crate::{mobility, raw, retention, Error, PeptideTable, Rows};

/// What a run gives: a model that does not fit has its error.
#[derive(Clone, Debug, PartialEq)]
pub struct Run {
    /// The records and the aligned times.
    pub aligned: Aligned,
    /// The retention model on the aligned times.
    pub retention: Result<Predicted, Error>,
    /// The mobility model.
    pub mobility: Result<Predicted, Error>,
}

/// The alignment, both fits on the aligned times, and the predictions of each model that fits.
///
/// ```
/// use zorkamai::{run, PeptideTable, Row, Rows};
/// let mut table = PeptideTable::default();
/// table.push(b"ACDK", 435.18);
/// let row = Row { label: 1, rt: 10.0, charge: 2, mobility: 0.9, ..Default::default() };
/// let run = run(&Rows::from_iter([row]), 1, &table)?;
/// assert_eq!((run.aligned.records[0].used, run.aligned.aligned[0]), (1, 1.0));
/// assert_eq!(run.retention?.fit.n, 1);
/// assert!(run.mobility?.error[0] < 0.01);
/// # Ok::<(), zorkamai::Error>(())
/// ```
pub fn run(rows: &Rows, files: usize, table: &PeptideTable) -> Result<Run, Error> {
    let (cells, records) = room(files, table.len());
    let n = rows.len();
    let mut workspace = vec![0.0; cells.max(mobility::WORKSPACE)];
    let mut columns = FileColumns::new(records);
    let mut aligned = vec![0.0; n];
    let outputs = |columns: usize| (vec![0.0; columns], vec![0.0; n], vec![0.0; n]);
    let (mut time_beta, mut time, mut time_error) = outputs(retention::COLUMNS);
    let (mut ims_beta, mut ims, mut ims_error) = outputs(mobility::COLUMNS);
    let report = raw::run(
        &rows.file,
        &rows.peptide,
        &rows.label,
        &rows.q,
        &rows.rt,
        &rows.charge,
        &rows.mobility,
        files,
        &table.letters,
        &table.offsets,
        &table.masses,
        &table.logs,
        &mut workspace,
        &mut columns.max_rt,
        &mut columns.slope,
        &mut columns.intercept,
        &mut columns.used,
        &mut columns.max_rt_exact,
        &mut columns.slope_exact,
        &mut columns.intercept_exact,
        &mut aligned,
        &mut time_beta,
        &mut time,
        &mut time_error,
        &mut ims_beta,
        &mut ims,
        &mut ims_error,
    );
    let call = handed_in(rows, files, table);
    if report.status != 0 {
        return Err(call.error(report.status));
    }
    Ok(Run {
        aligned: Aligned { records: columns.records(), aligned },
        retention: Predicted::of(report.retention, time_beta, time, time_error, &call),
        mobility: Predicted::of(report.mobility, ims_beta, ims, ims_error, &call),
    })
}

/// What a call of a run handed in.
fn handed_in<'a>(rows: &'a Rows, files: usize, table: &'a PeptideTable) -> Call<'a> {
    let mut call = alignment::handed_in(rows, files, table.len());
    call.columns.extend([
        ("charge", rows.charge.len()),
        ("mobility", rows.mobility.len()),
        ("masses", table.masses.len()),
        ("logs", table.logs.len()),
    ]);
    Call { table: Some(table), ..call }
}
