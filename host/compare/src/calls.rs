//! What the library's calls read of a batch, and the calls of the alignment and of both models. `host/bench` and
//! `host/oracle`'s test of edits compile this file too.

use oracle::alignment::Row;
use oracle::run::Batch;
use zorkamai::{raw, PeptideTable, Rows};

/// Which model is called.
#[derive(Copy, Clone, Debug)]
pub enum Model {
    Retention,
    Mobility,
}

/// The rows' columns, as the library takes them.
pub fn columns(rows: &[Row]) -> Rows {
    let row = |row: &Row| zorkamai::Row {
        file: row.file as u32,
        peptide: row.peptide.0,
        label: row.label,
        q: row.q,
        rt: row.rt,
        charge: row.charge,
        mobility: row.ims,
    };
    rows.iter().map(row).collect()
}

/// The columns that an alignment writes the files' records to.
pub struct Records<'a> {
    /// The longest times, slopes and intercepts.
    pub lines: [&'a mut [f32]; 3],
    /// The numbers of kept peptides.
    pub used: &'a mut [u32],
    /// Whether each longest time, slope and intercept is exact.
    pub exact: [&'a mut [bool]; 3],
}

/// Calls the alignment.
pub fn align(
    rows: &Rows,
    files: usize,
    peptides: usize,
    work: &mut [f64],
    records: Records,
    aligned: &mut [f32],
) -> u8 {
    let Rows { file, peptide, label, q, rt, .. } = rows;
    let Records {
        lines: [max_rt, slope, intercept],
        used,
        exact: [of_max_rt, of_slope, of_intercept],
    } = records;
    raw::align(
        file,
        peptide,
        label,
        q,
        rt,
        files,
        peptides,
        work,
        max_rt,
        slope,
        intercept,
        used,
        of_max_rt,
        of_slope,
        of_intercept,
        aligned,
    )
}

/// What a call reads.
#[derive(Clone)]
pub struct Input {
    pub rows: Rows,
    pub aligned: Vec<f32>,
    pub table: PeptideTable,
}

impl Input {
    /// A batch, with an aligned time for each row.
    pub fn new(batch: &Batch, aligned: Vec<f32>) -> Input {
        let mut table = PeptideTable::default();
        batch.peptides.iter().for_each(|p| table.push(&p.sequence, p.monoisotopic));
        Input { rows: columns(&batch.rows), aligned, table }
    }

    /// Calls a model's fit.
    pub fn fit(&self, model: Model, work: &mut [f64], beta: &mut [f64]) -> raw::Answer {
        let Rows { peptide, label, q, charge, mobility, .. } = &self.rows;
        let PeptideTable { letters, offsets, masses, logs } = &self.table;
        let aligned = &self.aligned;
        match model {
            Model::Retention => raw::retention_fit(
                peptide, label, q, aligned, letters, offsets, masses, logs, work, beta,
            ),
            Model::Mobility => raw::mobility_fit(
                peptide, label, q, charge, mobility, letters, offsets, masses, work, beta,
            ),
        }
    }

    /// Calls a model's predict, which writes predictions to `x` and errors to `e`.
    pub fn predict(
        &self,
        model: Model,
        work: &mut [f64],
        beta: &mut [f64],
        x: &mut [f32],
        e: &mut [f32],
    ) -> raw::Answer {
        let Rows { peptide, label, q, charge, mobility, .. } = &self.rows;
        let PeptideTable { letters, offsets, masses, logs } = &self.table;
        let aligned = &self.aligned;
        match model {
            Model::Retention => raw::retention_predict(
                peptide, label, q, aligned, letters, offsets, masses, logs, work, beta, x, e,
            ),
            Model::Mobility => raw::mobility_predict(
                peptide, label, q, charge, mobility, letters, offsets, masses, work, beta, x, e,
            ),
        }
    }
}
