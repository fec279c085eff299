//! Why a call was refused or failed.

use std::fmt;

/// Why a call was refused or failed, with the number that the library answered.
///
/// ```
/// let mut rows = zorkamai::Rows::default();
/// rows.push(zorkamai::Row { file: 2, ..Default::default() });
/// let error = zorkamai::align(&rows, 2, 1).unwrap_err();
/// assert_eq!(error.number(), 4);
/// assert_eq!(error.to_string(), "row 0 is of file 2, and there are 2 files");
/// ```
#[derive(Clone, Debug, PartialEq)]
pub enum Error {
    /// 1: columns that belong together, or a solver's sides, differ in length.
    Lengths(String),
    /// 2: a limit other than a peptide's length is passed.
    Limit(String),
    /// 3: work room or an output too short. Only the functions of [`crate::raw`] can meet it.
    TooShort,
    /// 4: a file number not below the number of files; of a lookup, without a row.
    File { row: Option<usize>, file: usize, files: usize },
    /// 5: a peptide number not below the number of peptides.
    Peptide { row: usize, peptide: usize, peptides: usize },
    /// 6: a letter outside A to Z, by its place in the table's letters.
    Letter { at: usize, letter: u8 },
    /// 7: offsets malformed, or a peptide over 255 letters.
    Offsets(String),
    /// 8: no row trains.
    NoTrainingRow,
    /// 9: no ridge solves the system.
    NotSolved,
    /// 10: a text of the align program is malformed. The library reads no text.
    Text,
}

impl Error {
    /// The number in the table of refusals.
    pub fn number(&self) -> u8 {
        match self {
            Error::Lengths(_) => 1,
            Error::Limit(_) => 2,
            Error::TooShort => 3,
            Error::File { .. } => 4,
            Error::Peptide { .. } => 5,
            Error::Letter { .. } => 6,
            Error::Offsets(_) => 7,
            Error::NoTrainingRow => 8,
            Error::NotSolved => 9,
            Error::Text => 10,
        }
    }
}

impl fmt::Display for Error {
    fn fmt(&self, f: &mut fmt::Formatter) -> fmt::Result {
        match self {
            Error::Lengths(what) | Error::Limit(what) | Error::Offsets(what) => f.write_str(what),
            Error::TooShort => f.write_str("the work room or an output is too short"),
            Error::File { row: Some(row), file, files } => {
                write!(f, "row {row} is of file {file}, and there are {files} files")
            }
            Error::File { row: None, file, files } => {
                write!(f, "file {file} has no record: there are {files} files")
            }
            Error::Peptide { row, peptide, peptides } => {
                write!(f, "row {row} is of peptide {peptide}, and there are {peptides} peptides")
            }
            Error::Letter { at, letter } => {
                write!(f, "letter {at} is {:?}, not one of A to Z", *letter as char)
            }
            Error::NoTrainingRow => {
                f.write_str("no row trains: none has label 1 and a q of at most 0.01")
            }
            Error::NotSolved => f.write_str("no ridge from 1E-8 to 1.0 solves the system"),
            Error::Text => f.write_str("the text of the align program is malformed"),
        }
    }
}

impl std::error::Error for Error {}

/// What a call handed in, to find out what was wrong with it where it is refused.
#[derive(Default)]
pub(crate) struct Call<'a> {
    /// The columns that belong together, by name, with their lengths.
    pub columns: Vec<(&'static str, usize)>,
    /// The numbers that have limits, by name, with their least and largest value.
    pub limits: Vec<(&'static str, usize, usize, usize)>,
    pub file: &'a [u32],
    pub files: usize,
    pub peptide: &'a [u32],
    pub peptides: usize,
    pub table: Option<&'a crate::PeptideTable>,
}

impl Call<'_> {
    /// The error for the number that the library answered.
    pub fn error(&self, number: u8) -> Error {
        match number {
            1 => Error::Lengths(self.lengths()),
            2 => Error::Limit(self.limit()),
            3 => Error::TooShort,
            4 => first_past(self.file, self.files)
                .map(|(row, file)| Error::File { row: Some(row), file, files: self.files })
                .expect("4 is answered only for such a row"),
            5 => first_past(self.peptide, self.peptides)
                .map(|(row, peptide)| Error::Peptide { row, peptide, peptides: self.peptides })
                .expect("5 is answered only for such a row"),
            6 => self
                .table
                .and_then(|t| t.first_bad_letter())
                .expect("6 is answered only for such a letter"),
            7 => Error::Offsets(self.table.map_or_else(String::new, |t| t.bad_offsets())),
            8 => Error::NoTrainingRow,
            9 => Error::NotSolved,
            _ => Error::Text,
        }
    }

    fn lengths(&self) -> String {
        let each = self.columns.iter().map(|(name, n)| format!("{n} of {name}"));
        format!("columns that belong together differ: {}", each.collect::<Vec<_>>().join(", "))
    }

    fn limit(&self) -> String {
        let past = self.limits.iter().find(|(_, n, least, most)| n < least || most < n);
        past.map_or_else(String::new, |(name, n, least, most)| {
            format!("{name}: {n} is not from {least} to {most}")
        })
    }
}

/// The first number that is not below `n`, and its row.
fn first_past(numbers: &[u32], n: usize) -> Option<(usize, usize)> {
    numbers.iter().map(|&x| x as usize).enumerate().find(|(_, x)| n <= *x)
}
