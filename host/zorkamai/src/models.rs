//! The retention and the mobility model.

use crate::error::Call;
use crate::limits::{PEPTIDES, ROWS};
use crate::{raw, Error, PeptideTable, Rows};

/// A fitted model.
#[derive(Clone, Debug, PartialEq)]
pub struct Fit {
    /// The first ridge, from 1E-8 in steps of ten, with which the normal equations are solved.
    pub ridge: f64,
    /// 1 less the squared errors' share of the variance, over the training rows. It may be infinite or NaN.
    pub r2: f64,
    /// The number of training rows.
    pub n: usize,
    /// A coefficient for each column.
    pub beta: Vec<f64>,
}

/// A fitted model, and for each row its prediction and its distance from what was observed.
#[derive(Clone, Debug, PartialEq)]
pub struct Predicted {
    /// The model.
    pub fit: Fit,
    /// A prediction for each row.
    pub predicted: Vec<f32>,
    /// The absolute difference of each row's prediction and what was observed.
    pub error: Vec<f32>,
    /// How many of the predictions are not exact: each is worked out as an f64, and the f32 does not equal that. NaN
    /// equals nothing, so every NaN counts.
    pub inexact: usize,
}

impl Fit {
    /// The fit of an answer, or why there is none.
    fn of(answer: raw::Answer, beta: Vec<f64>, call: &Call) -> Result<Fit, Error> {
        match answer.status {
            0 => Ok(Fit { ridge: answer.ridge, r2: answer.r2, n: answer.n as usize, beta }),
            number => Err(call.error(number)),
        }
    }
}

impl Predicted {
    /// The fit of an answer with the predictions and the errors, or why there is none.
    pub(crate) fn of(
        answer: raw::Answer,
        beta: Vec<f64>,
        predicted: Vec<f32>,
        error: Vec<f32>,
        call: &Call,
    ) -> Result<Predicted, Error> {
        let fit = Fit::of(answer, beta, call)?;
        Ok(Predicted { fit, predicted, error, inexact: answer.inexact as usize })
    }
}

/// Makes a call with work room and coefficients of these lengths, and gives its answer and the coefficients.
fn called(
    (workspace, columns): (usize, usize),
    call: impl FnOnce(&mut [f64], &mut [f64]) -> raw::Answer,
) -> (raw::Answer, Vec<f64>) {
    let (mut workspace, mut beta) = (vec![0.0; workspace], vec![0.0; columns]);
    (call(&mut workspace, &mut beta), beta)
}

/// Calls a fit.
fn fitted(
    room: (usize, usize),
    handed_in: Call,
    call: impl FnOnce(&mut [f64], &mut [f64]) -> raw::Answer,
) -> Result<Fit, Error> {
    let (answer, beta) = called(room, call);
    Fit::of(answer, beta, &handed_in)
}

/// As [`fitted`], with a cell for each row of the predictions and of the errors too.
fn predicted(
    room: (usize, usize),
    handed_in: Call,
    call: impl FnOnce(&mut [f64], &mut [f64], &mut [f32], &mut [f32]) -> raw::Answer,
) -> Result<Predicted, Error> {
    let n = handed_in.peptide.len();
    let (mut predicted, mut error) = (vec![0.0; n], vec![0.0; n]);
    let (answer, beta) = called(room, |work, beta| call(work, beta, &mut predicted, &mut error));
    Predicted::of(answer, beta, predicted, error, &handed_in)
}

/// What a model's call hands in; `others` are its columns besides those that both models take.
fn handed_in<'a>(
    rows: &'a Rows,
    others: &[(&'static str, usize)],
    table: &'a PeptideTable,
) -> Call<'a> {
    let mut columns =
        vec![("peptide", rows.peptide.len()), ("label", rows.label.len()), ("q", rows.q.len())];
    columns.extend(others);
    let limits =
        vec![("rows", rows.peptide.len(), 0, ROWS), ("peptides", table.masses.len(), 0, PEPTIDES)];
    let (peptide, peptides) = (&rows.peptide[..], table.masses.len());
    Call { columns, limits, peptide, peptides, table: Some(table), ..Call::default() }
}

/// The retention model: 69 columns of a peptide against the aligned time.
pub mod retention {
    use super::*;

    /// The number of columns.
    pub const COLUMNS: usize = 69;
    /// The cells of work room that a fit needs.
    pub const WORKSPACE: usize = 7_314;

    /// Fits the model to the training rows; `aligned` has an aligned time for each row.
    ///
    /// ```
    /// use zorkamai::{retention, Error, PeptideTable, Row, Rows};
    /// let mut table = PeptideTable::default();
    /// table.push(b"ACDK", 435.18);
    /// let rows = Rows::from_iter([Row { label: 1, ..Default::default() }]);
    /// let fit = retention::fit(&rows, &[0.5], &table)?;
    /// assert_eq!((fit.n, fit.beta.len()), (1, retention::COLUMNS));
    /// let outside = Rows::from_iter([Row { label: -1, ..Default::default() }]);
    /// assert_eq!(retention::fit(&outside, &[0.5], &table), Err(Error::NoTrainingRow));
    /// # Ok::<(), Error>(())
    /// ```
    pub fn fit(rows: &Rows, aligned: &[f32], table: &PeptideTable) -> Result<Fit, Error> {
        let Rows { peptide, label, q, .. } = rows;
        let PeptideTable { letters, offsets, masses, logs } = table;
        fitted((WORKSPACE, COLUMNS), handed_in(rows, aligned, table), |work, beta| {
            raw::retention_fit(
                peptide, label, q, aligned, letters, offsets, masses, logs, work, beta,
            )
        })
    }

    /// Fits the model and predicts every row, from 0 to 1.
    ///
    /// ```
    /// use zorkamai::{retention, PeptideTable, Row, Rows};
    /// let mut table = PeptideTable::default();
    /// table.push(b"ACDK", 435.18);
    /// table.push(b"LLVR", 499.35);
    /// let row = |peptide| Row { peptide, label: 1, ..Default::default() };
    /// let rows = Rows::from_iter([row(0), row(1)]);
    /// let model = retention::predict(&rows, &[0.25, 0.75], &table)?;
    /// assert!(model.error.iter().all(|e| *e < 0.01));
    /// // A model of zeros predicts zeros, which are exact.
    /// assert_eq!(retention::predict(&rows, &[0.0, 0.0], &table)?.inexact, 0);
    /// # Ok::<(), zorkamai::Error>(())
    /// ```
    pub fn predict(rows: &Rows, aligned: &[f32], table: &PeptideTable) -> Result<Predicted, Error> {
        let Rows { peptide, label, q, .. } = rows;
        let PeptideTable { letters, offsets, masses, logs } = table;
        predicted((WORKSPACE, COLUMNS), handed_in(rows, aligned, table), |work, beta, x, e| {
            raw::retention_predict(
                peptide, label, q, aligned, letters, offsets, masses, logs, work, beta, x, e,
            )
        })
    }

    fn handed_in<'a>(rows: &'a Rows, aligned: &[f32], table: &'a PeptideTable) -> Call<'a> {
        let (masses, logs) = (table.masses.len(), table.logs.len());
        let others = [("aligned", aligned.len()), ("masses", masses), ("logs", logs)];
        super::handed_in(rows, &others, table)
    }
}

/// The mobility model: 100 columns of a peptide and a charge against the ion mobility.
pub mod mobility {
    use super::*;

    /// The number of columns.
    pub const COLUMNS: usize = 100;
    /// The cells of work room that a fit needs.
    pub const WORKSPACE: usize = 15_250;

    /// Fits the model to the mobilities of the training rows.
    ///
    /// ```
    /// use zorkamai::{mobility, PeptideTable, Row, Rows};
    /// let mut table = PeptideTable::default();
    /// table.push(b"ACDK", 435.18);
    /// let rows = Rows::from_iter([Row { label: 1, charge: 2, mobility: 0.9, ..Default::default() }]);
    /// assert_eq!(mobility::fit(&rows, &table)?.n, 1);
    /// # Ok::<(), zorkamai::Error>(())
    /// ```
    pub fn fit(rows: &Rows, table: &PeptideTable) -> Result<Fit, Error> {
        let Rows { peptide, label, q, charge, mobility, .. } = rows;
        let PeptideTable { letters, offsets, masses, .. } = table;
        fitted((WORKSPACE, COLUMNS), handed_in(rows, table), |work, beta| {
            raw::mobility_fit(
                peptide, label, q, charge, mobility, letters, offsets, masses, work, beta,
            )
        })
    }

    /// Fits the model and predicts every row, from 0 to 2.
    ///
    /// ```
    /// use zorkamai::{mobility, PeptideTable, Row, Rows};
    /// let mut table = PeptideTable::default();
    /// table.push(b"ACDK", 435.18);
    /// table.push(b"", 18.01); // its shares of letters are NaN, and so is its prediction
    /// let row = Row { label: 1, charge: 2, mobility: 0.9, ..Default::default() };
    /// let empty = Row { peptide: 1, label: -1, ..row };
    /// let model = mobility::predict(&Rows::from_iter([row, empty]), &table)?;
    /// assert!(model.error[0] < 0.01 && model.predicted[1].is_nan());
    /// assert_eq!(model.inexact, 2);
    /// # Ok::<(), zorkamai::Error>(())
    /// ```
    pub fn predict(rows: &Rows, table: &PeptideTable) -> Result<Predicted, Error> {
        let Rows { peptide, label, q, charge, mobility, .. } = rows;
        let PeptideTable { letters, offsets, masses, .. } = table;
        predicted((WORKSPACE, COLUMNS), handed_in(rows, table), |work, beta, x, e| {
            raw::mobility_predict(
                peptide, label, q, charge, mobility, letters, offsets, masses, work, beta, x, e,
            )
        })
    }

    fn handed_in<'a>(rows: &'a Rows, table: &'a PeptideTable) -> Call<'a> {
        let others = [("charge", rows.charge.len()), ("mobility", rows.mobility.len())];
        super::handed_in(rows, &others, table)
    }
}
