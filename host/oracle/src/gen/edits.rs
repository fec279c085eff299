//! Pairs of batches for document 01's rule about edits outside the training set: the second batch
//! is the first after a list of edits that keeps each file's longest time.

use super::alignment::nasty_time;
use super::pools::{edge32, nan32};
use super::run;
use crate::alignment::Row;
use crate::rng::Rng;
use crate::run::Batch;
use sage::database::PeptideIx;

/// The number of pairs that are stored: the last batches of the runs, the ends of each in a row.
pub const PAIRS: usize = 56;

/// An edit of a list of rows; a row it names or brings is outside the training set.
#[derive(Clone, Debug)]
pub enum Edit {
    Rewrite(usize, Row),
    Add(usize, Row),
    Remove(usize),
    Move(usize, usize),
}

/// A batch, edits of its rows, and the batch that they leave.
pub struct Pair {
    pub before: Batch,
    pub edits: Vec<Edit>,
    pub after: Batch,
}

/// The pairs that are stored.
pub fn stored() -> Vec<Pair> {
    pairs(0xED17, PAIRS)
}

/// So many pairs, of all families by turns.
pub fn pairs(seed: u64, n: usize) -> Vec<Pair> {
    let mut r = Rng::new(seed);
    (0..n).map(|i| pair(&mut r, i)).collect()
}

/// Whether a row trains.
pub fn trains(row: &Row) -> bool {
    row.label == 1 && row.q <= 0.01
}

/// A file's longest time over all rows, rounded up.
pub fn longest(rows: &[Row], file: usize) -> u32 {
    rows.iter().filter(|row| row.file == file).map(|row| row.rt.ceil() as u32).max().unwrap_or(0)
}

impl Edit {
    /// Edits a list.
    pub fn apply(&self, rows: &mut Vec<Row>) {
        match *self {
            Edit::Rewrite(at, row) => rows[at] = row,
            Edit::Add(at, row) => rows.insert(at, row),
            Edit::Remove(at) => drop(rows.remove(at)),
            Edit::Move(from, to) => {
                let row = rows.remove(from);
                rows.insert(to, row);
            }
        }
    }
}

fn pair(r: &mut Rng, i: usize) -> Pair {
    let before = batch(r, i);
    let numbers = (0..before.peptides.len() as u32).collect();
    let mut list = List { files: before.files, numbers, rows: before.rows.clone(), edits: vec![] };
    list.edit(r, i);
    list.restore(r, &before.rows);
    let after = Batch { rows: list.rows, ..before.clone() };
    Pair { before, edits: list.edits, after }
}

/// The batch that pair `i` starts from.
pub(super) fn batch(r: &mut Rng, i: usize) -> Batch {
    match i % 14 {
        0..=3 => {
            let (files, peptides, rows) = (r.range(1, 4), r.range(4, 20), r.range(15, 60));
            run::batch(r, files, peptides, rows)
        }
        4..=6 => run::nasty_outside(r),
        7 | 8 => run::nasty_times(r),
        9 => run::nasty_mobilities(r),
        10 => run::unsolvable(r, i / 14),
        11 => run::heavy(r),
        12 => run::one_training_row(r),
        _ => run::without_training(r),
    }
}

/// A list of rows while it is edited, and the peptide numbers that the rows may have after the last edit.
pub(super) struct List {
    pub files: usize,
    pub numbers: Vec<u32>,
    pub rows: Vec<Row>,
    pub edits: Vec<Edit>,
}

impl List {
    pub fn push(&mut self, edit: Edit) {
        edit.apply(&mut self.rows);
        self.edits.push(edit);
    }

    /// The places of the rows outside the training set.
    pub fn outside(&self) -> Vec<usize> {
        (0..self.rows.len()).filter(|&at| !trains(&self.rows[at])).collect()
    }

    /// Some edits, whatever they do to the longest times; some pairs lose every row outside first.
    pub fn edit(&mut self, r: &mut Rng, i: usize) {
        if i % 9 == 8 {
            self.outside().into_iter().rev().for_each(|at| self.push(Edit::Remove(at)));
        }
        for _ in 0..r.range(4, 14) {
            let edit = self.any(r);
            self.push(edit);
        }
    }

    /// Any edit; without a row outside, an addition.
    fn any(&self, r: &mut Rng) -> Edit {
        let outside = self.outside();
        let place = r.below(self.rows.len() + 1);
        if outside.is_empty() {
            return Edit::Add(place, self.row(r));
        }
        let at = r.pick(&outside);
        match r.below(5) {
            0 => Edit::Rewrite(at, self.row(r)),
            1 => Edit::Add(place, self.row(r)),
            2 => Edit::Add(place, self.rows[at]),
            3 => Edit::Remove(at),
            _ => Edit::Move(at, r.below(self.rows.len())),
        }
    }

    /// A row outside the training set, plain or nasty, now and then of a file or a peptide that is
    /// not there.
    pub fn row(&self, r: &mut Rng) -> Row {
        let past = r.one_in(12) as usize;
        let (file, at) = (r.below(self.files + past), r.below(self.numbers.len() + past));
        let peptide = self.numbers.get(at).copied().unwrap_or_else(|| self.no_number());
        let rt = if r.one_in(2) { nasty_time(r) } else { 120.0 * r.unit() as f32 };
        let ims = if r.one_in(3) { f32::from_bits(edge32(r)) } else { 2.0 * r.unit() as f32 };
        let charge = r.pick(&[0, 1, 2, 3, 4, 255]);
        let small = 0.01 * r.unit() as f32;
        let (label, q) = match r.below(5) {
            0 => (-1, small),
            1 => (r.pick(&[0, 2, i32::MIN, i32::MAX, -1]), 0.0),
            2 => (1, f32::from_bits(nan32(r) | (r.bits() as u32) << 31)),
            3 => (1, f32::from_bits(0x3C23_D70B)),
            _ => (1, r.pick(&[0.011, 1.0, f32::INFINITY])),
        };
        Row { file, peptide: PeptideIx(peptide), label, q, rt, charge, ims }
    }

    /// A peptide number that no row may have after the last edit.
    fn no_number(&self) -> u32 {
        let mut from = self.numbers.len() as u32..;
        from.find(|number| !self.numbers.contains(number)).expect("numbers to spare")
    }

    /// The last edits: a row of no file or no peptide goes, a time that is too long is cut, and a
    /// file that has lost its longest time gets a row with it.
    pub fn restore(&mut self, r: &mut Rng, before: &[Row]) {
        for at in (0..self.rows.len()).rev() {
            let row = self.rows[at];
            if self.files <= row.file || !self.numbers.contains(&row.peptide.0) {
                self.push(Edit::Remove(at));
            } else if longest(before, row.file) < row.rt.ceil() as u32 {
                self.push(Edit::Rewrite(at, Row { rt: longest(before, row.file) as f32, ..row }));
            }
        }
        for file in 0..self.files {
            let time = longest(before, file);
            if longest(&self.rows, file) < time {
                let place = r.below(self.rows.len() + 1);
                let peptide = PeptideIx(r.pick(&self.numbers));
                let row = Row { file, peptide, rt: time as f32, ..self.row(r) };
                self.push(Edit::Add(place, row));
            }
        }
    }
}
