//! The alignment of retention times.

use crate::error::Call;
use crate::limits::{CELLS, FILES, PEPTIDES, ROWS};
use crate::{raw, Alignment, Error, Rows};

/// What an alignment gives.
#[derive(Clone, Debug, PartialEq)]
pub struct Aligned {
    /// A record for each file.
    pub records: Vec<Alignment>,
    /// A row's aligned time, for each row.
    pub aligned: Vec<f32>,
}

/// Aligns the rows' times over the files: a line for each file that takes its times, as shares of the file's
/// longest time, to the mean shares of the peptides that training rows name. [`Alignment::used`] says how many
/// peptides carry a file's line, and three flags which of its numbers lost nothing where they were rounded to f32.
/// The order of the rows moves no record, and no row's aligned time.
///
/// ```
/// use zorkamai::{align, Row, Rows};
/// let row = Row { label: 1, rt: 10.0, ..Default::default() };
/// let far = Row { file: 1, rt: 5E9, ..Default::default() };
/// let two = align(&Rows::from_iter([row, far]), 2, 1)?;
/// let (a, b) = (two.records[0], two.records[1]);
/// assert_eq!((a.max_rt, a.slope, a.intercept, a.used), (10.0, 0.0, 1.0, 1));
/// assert!(a.max_rt_exact && a.slope_exact && a.intercept_exact);
/// assert_eq!((b.max_rt, b.slope, b.intercept, b.used), (4_294_967_296.0, 1.0, 0.0, 0));
/// assert!(!b.max_rt_exact); // the longest time is 4,294,967,295
/// assert_eq!(two.aligned[0], 1.0);
/// # Ok::<(), zorkamai::Error>(())
/// ```
pub fn align(rows: &Rows, files: usize, peptides: usize) -> Result<Aligned, Error> {
    let (cells, records) = room(files, peptides);
    let mut workspace = vec![0.0; cells];
    let mut columns = FileColumns::new(records);
    let mut aligned = vec![0.0; rows.len()];
    let number = raw::align(
        &rows.file,
        &rows.peptide,
        &rows.label,
        &rows.q,
        &rows.rt,
        files,
        peptides,
        &mut workspace,
        &mut columns.max_rt,
        &mut columns.slope,
        &mut columns.intercept,
        &mut columns.used,
        &mut columns.max_rt_exact,
        &mut columns.slope_exact,
        &mut columns.intercept_exact,
        &mut aligned,
    );
    match number {
        0 => Ok(Aligned { records: columns.records(), aligned }),
        _ => Err(handed_in(rows, files, peptides).error(number)),
    }
}

/// The cells of work room and the records that an alignment needs. Past the limits it is refused, whatever room
/// it has.
pub(crate) fn room(files: usize, peptides: usize) -> (usize, usize) {
    let cells = peptides.saturating_mul(files);
    if cells <= CELLS && files <= FILES {
        (cells, files)
    } else {
        (0, 0)
    }
}

/// The columns that the files' records are written to.
pub(crate) struct FileColumns {
    pub max_rt: Vec<f32>,
    pub slope: Vec<f32>,
    pub intercept: Vec<f32>,
    pub used: Vec<u32>,
    pub max_rt_exact: Vec<bool>,
    pub slope_exact: Vec<bool>,
    pub intercept_exact: Vec<bool>,
}

impl FileColumns {
    /// For so many records.
    pub fn new(records: usize) -> FileColumns {
        let [max_rt, slope, intercept] = [(); 3].map(|_| vec![0.0; records]);
        let used = vec![0; records];
        let [max_rt_exact, slope_exact, intercept_exact] = [(); 3].map(|_| vec![false; records]);
        FileColumns { max_rt, slope, intercept, used, max_rt_exact, slope_exact, intercept_exact }
    }

    /// The records that the columns hold.
    pub fn records(&self) -> Vec<Alignment> {
        let record = |i: usize| Alignment {
            max_rt: self.max_rt[i],
            slope: self.slope[i],
            intercept: self.intercept[i],
            used: self.used[i],
            max_rt_exact: self.max_rt_exact[i],
            slope_exact: self.slope_exact[i],
            intercept_exact: self.intercept_exact[i],
        };
        (0..self.used.len()).map(record).collect()
    }
}

/// What a call of an alignment handed in.
pub(crate) fn handed_in(rows: &Rows, files: usize, peptides: usize) -> Call<'_> {
    let columns = vec![
        ("file", rows.file.len()),
        ("peptide", rows.peptide.len()),
        ("label", rows.label.len()),
        ("q", rows.q.len()),
        ("rt", rows.rt.len()),
    ];
    let limits = vec![
        ("files", files, 1, FILES),
        ("rows", rows.len(), 0, ROWS),
        ("peptides", peptides, 0, PEPTIDES),
        ("peptides × files", peptides.saturating_mul(files), 0, CELLS),
    ];
    Call { columns, limits, file: &rows.file, files, peptide: &rows.peptide, peptides, table: None }
}

/// A file's record in a list of records.
///
/// ```
/// use zorkamai::{record_of, Alignment};
/// let records = [Alignment { max_rt: 10.0, used: 7, max_rt_exact: true, ..Default::default() }];
/// assert_eq!(record_of(&records, 0)?, records[0]);
/// assert_eq!(record_of(&records, 1).unwrap_err().number(), 4);
/// # Ok::<(), zorkamai::Error>(())
/// ```
pub fn record_of(records: &[Alignment], file: u32) -> Result<Alignment, Error> {
    let found = raw::record_of(records, file);
    match found.status {
        0 => Ok(Alignment {
            max_rt: found.max_rt,
            slope: found.slope,
            intercept: found.intercept,
            used: found.used,
            max_rt_exact: found.max_rt_exact,
            slope_exact: found.slope_exact,
            intercept_exact: found.intercept_exact,
        }),
        _ => Err(no_record(records, file)),
    }
}

/// The aligned time of a row with this file and this time, by a list of records.
///
/// ```
/// use zorkamai::{aligned_time, Alignment};
/// let records = [Alignment { max_rt: 10.0, slope: 0.5, intercept: 0.25, ..Default::default() }];
/// assert_eq!(aligned_time(&records, 0, 5.0)?, 0.5);
/// # Ok::<(), zorkamai::Error>(())
/// ```
pub fn aligned_time(records: &[Alignment], file: u32, rt: f32) -> Result<f32, Error> {
    let found = raw::aligned_time(records, file, rt);
    match found.status {
        0 => Ok(found.aligned),
        _ => Err(no_record(records, file)),
    }
}

fn no_record(records: &[Alignment], file: u32) -> Error {
    Error::File { row: None, file: file as usize, files: records.len() }
}
