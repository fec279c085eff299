//! Rows and the peptide table, column by column, as the library takes them.

use crate::limits::LETTERS;
use crate::Error;

/// A row: one match of a spectrum to a peptide.
#[derive(Copy, Clone, Debug, Default, PartialEq)]
pub struct Row {
    /// The file's number, from 0.
    pub file: u32,
    /// The peptide's number in the [`PeptideTable`], from 0.
    pub peptide: u32,
    /// 1 for a target. A row trains if its label is 1 and its q at most 0.01.
    pub label: i32,
    /// The spectrum's q.
    pub q: f32,
    /// The retention time.
    pub rt: f32,
    /// The precursor's charge.
    pub charge: u8,
    /// The ion mobility.
    pub mobility: f32,
}

/// Rows, a column for each field. Columns that a call takes must be of one length; [`Rows::push`] keeps
/// them so.
#[derive(Clone, Debug, Default, PartialEq)]
pub struct Rows {
    pub file: Vec<u32>,
    pub peptide: Vec<u32>,
    pub label: Vec<i32>,
    pub q: Vec<f32>,
    pub rt: Vec<f32>,
    pub charge: Vec<u8>,
    pub mobility: Vec<f32>,
}

impl Rows {
    /// Adds a row at the end.
    pub fn push(&mut self, row: Row) {
        self.file.push(row.file);
        self.peptide.push(row.peptide);
        self.label.push(row.label);
        self.q.push(row.q);
        self.rt.push(row.rt);
        self.charge.push(row.charge);
        self.mobility.push(row.mobility);
    }

    /// The number of rows.
    pub fn len(&self) -> usize {
        self.file.len()
    }

    /// Whether there is no row.
    pub fn is_empty(&self) -> bool {
        self.file.is_empty()
    }
}

impl FromIterator<Row> for Rows {
    fn from_iter<I: IntoIterator<Item = Row>>(all: I) -> Rows {
        let mut rows = Rows::default();
        all.into_iter().for_each(|row| rows.push(row));
        rows
    }
}

/// The peptides: peptide i has the letters from `offsets[i]` to `offsets[i + 1]`, a mass, and the log
/// `ln_1p` of that mass, which the retention model takes.
///
/// ```
/// let mut table = zorkamai::PeptideTable::default();
/// table.push(b"ACDK", 435.18);
/// table.push(b"LVR", 386.26);
/// assert_eq!(table.len(), 2);
/// assert_eq!(table.offsets, [0, 4, 7]);
/// ```
#[derive(Clone, Debug, PartialEq)]
pub struct PeptideTable {
    pub letters: Vec<u8>,
    pub offsets: Vec<u32>,
    pub masses: Vec<f32>,
    pub logs: Vec<f64>,
}

impl Default for PeptideTable {
    fn default() -> PeptideTable {
        PeptideTable { letters: vec![], offsets: vec![0], masses: vec![], logs: vec![] }
    }
}

impl PeptideTable {
    /// Adds a peptide at the end, with the platform's log of its mass.
    pub fn push(&mut self, letters: &[u8], monoisotopic: f32) {
        self.letters.extend_from_slice(letters);
        self.offsets.push(self.letters.len() as u32);
        self.masses.push(monoisotopic);
        self.logs.push((monoisotopic as f64).ln_1p());
    }

    /// The number of peptides.
    pub fn len(&self) -> usize {
        self.masses.len()
    }

    /// Whether there is no peptide.
    pub fn is_empty(&self) -> bool {
        self.masses.is_empty()
    }

    /// The error of the first letter outside A to Z.
    pub(crate) fn first_bad_letter(&self) -> Option<Error> {
        let at = self.letters.iter().position(|x| !x.is_ascii_uppercase())?;
        Some(Error::Letter { at, letter: self.letters[at] })
    }

    /// What is wrong with the offsets.
    pub(crate) fn bad_offsets(&self) -> String {
        let (n, end) = (self.masses.len(), self.letters.len());
        if self.offsets.len() != n + 1 {
            return format!("{} offsets for {n} peptides: one more is needed", self.offsets.len());
        }
        if self.offsets[0] != 0 {
            return format!("the first offset is {}, not 0", self.offsets[0]);
        }
        for (i, pair) in self.offsets.windows(2).enumerate() {
            if pair[1] < pair[0] {
                return format!("peptide {i}: offset {} after {}", pair[1], pair[0]);
            }
        }
        if self.offsets[n] as usize != end {
            return format!("the last offset is {}, and there are {end} letters", self.offsets[n]);
        }
        let long = self.offsets.windows(2).position(|p| LETTERS < (p[1] - p[0]) as usize);
        long.map_or_else(String::new, |i| format!("peptide {i} has over {LETTERS} letters"))
    }
}
