//! The ends of a pair, with the Rust's answers, and the demand that two answers agree.

use crate::answer::{rust, Answer};
use oracle::alignment::Row;
use oracle::gen::edits::{self, Pair};
use oracle::gen::tables::{self, TablePair};
use oracle::run::Batch;
use std::collections::BTreeMap;
use std::sync::LazyLock;
use std::thread;

/// What makes a row of one end and a row of the other the same row, to the bit.
pub type Mark = Vec<u64>;

/// Both ends of a pair, the mark of each row, and the Rust's answers.
pub struct Ends {
    pub batches: [Batch; 2],
    pub marks: [Vec<Mark>; 2],
    pub rust: [Answer; 2],
}

/// The pairs with one table: those that are stored, and more of them.
pub fn pairs() -> Vec<Pair> {
    edits::stored().into_iter().chain(edits::pairs(0x1DE5, 28)).collect()
}

/// A row has all its fields in its mark.
pub static ONE_TABLE: LazyLock<Vec<Ends>> = LazyLock::new(|| {
    let ends = |Pair { before, after, .. }| {
        let marks = [all_fields(&before.rows), all_fields(&after.rows)];
        Ends::new([before, after], marks)
    };
    pairs().into_iter().map(ends).collect()
});

/// The pairs of a host's rows.
pub fn host_pairs() -> Vec<TablePair> {
    tables::hosts(0x4057, 112)
}

/// A row has all its fields in its mark, with the host's peptide number.
pub static HOSTS: LazyLock<Vec<(TablePair, Ends)>> = LazyLock::new(|| {
    let both = |pair: TablePair| {
        let marks = [all_fields(&pair.before), all_fields(&pair.after)];
        let ends = Ends::new(pair.ends(), marks);
        (pair, ends)
    };
    host_pairs().into_iter().map(both).collect()
});

/// The pairs with two tables.
pub fn table_pairs() -> Vec<TablePair> {
    tables::tables(0x7AB1, 112)
}

/// A row has what the table says of its peptide in its mark, and not the number.
pub static TWO_TABLES: LazyLock<Vec<Ends>> = LazyLock::new(|| {
    let ends = |pair: TablePair| {
        let batches = pair.ends();
        let marks = [without_number(&batches[0]), without_number(&batches[1])];
        Ends::new(batches, marks)
    };
    table_pairs().into_iter().map(ends).collect()
});

/// A row's seven fields.
pub fn fields(row: &Row) -> Mark {
    let [q, rt, ims] = [row.q, row.rt, row.ims].map(|x| x.to_bits() as u64);
    let label = row.label as u32 as u64;
    vec![row.file as u64, row.peptide.0 as u64, label, q, rt, row.charge as u64, ims]
}

pub fn all_fields<'a>(rows: impl IntoIterator<Item = &'a Row>) -> Vec<Mark> {
    rows.into_iter().map(fields).collect()
}

/// Of each row the file, time, charge and mobility, and what the table says of its peptide: letters and mass, of
/// which the log is.
pub fn without_number(batch: &Batch) -> Vec<Mark> {
    let mark = |row: &Row| {
        let peptide = &batch.peptides[row.peptide.0 as usize];
        let floats = [row.rt, row.ims, peptide.monoisotopic].map(|x| x.to_bits() as u64);
        let letters = peptide.sequence.iter().map(|letter| *letter as u64);
        [row.file as u64, row.charge as u64].into_iter().chain(floats).chain(letters).collect()
    };
    batch.rows.iter().map(mark).collect()
}

impl Ends {
    pub fn new(batches: [Batch; 2], marks: [Vec<Mark>; 2]) -> Ends {
        let [before, after] = &batches;
        let rust = thread::scope(|scope| {
            let other = scope.spawn(|| rust(after));
            [rust(before), other.join().expect("an answer")]
        });
        Ends { batches, marks, rust }
    }

    /// That answers to both ends agree, and how often a row of one is a row of the other.
    pub fn agree(&self, answers: [&Answer; 2]) -> Result<usize, Difference> {
        agree([&self.marks[0], &self.marks[1]], answers)
    }

    /// The same, and that the answers are the Rust's.
    pub fn hold(&self, answers: [&Answer; 2]) -> Result<usize, Difference> {
        match (0..2).find(|&end| *answers[end] != self.rust[end]) {
            Some(end) => Err(Difference::Rust(end)),
            None => self.agree(answers),
        }
    }
}

/// Why answers don't agree: that to an end is not the Rust's, the fitted numbers differ, or the results of a row
/// that both ends have.
#[derive(PartialEq, Debug)]
pub enum Difference {
    Rust(usize),
    Fitted,
    Row(Mark),
}

/// That the answers to two lists of rows agree, but for the predictions that are not exact, which the rows outside
/// have too; and how often a row of one is a row of the other.
pub fn agree(marks: [&[Mark]; 2], answers: [&Answer; 2]) -> Result<usize, Difference> {
    let [before, after] = answers;
    if before.fitted != after.fitted {
        return Err(Difference::Fitted);
    }
    let mut same = 0;
    for (mark, results) in marks[0].iter().zip(&before.rows) {
        for (other, theirs) in marks[1].iter().zip(&after.rows) {
            if mark == other && results != theirs {
                return Err(Difference::Row(mark.clone()));
            }
            same += (mark == other) as usize;
        }
    }
    Ok(same)
}

/// What pairs of one sort come to: how many they are, how often a row is at both ends, in how many pairs the numbers
/// of predictions that are not exact differ between the ends, and how often each number answers a fit.
#[derive(Default, Debug)]
pub struct Count {
    pub pairs: usize,
    pub same: usize,
    pub other_counts: usize,
    pub retention: BTreeMap<u64, usize>,
    pub mobility: BTreeMap<u64, usize>,
}

impl Count {
    /// Over the Rust's answers to pairs, which must agree.
    pub fn rust<'a>(pairs: impl IntoIterator<Item = &'a Ends>) -> Count {
        let mut count = Count::default();
        pairs.into_iter().for_each(|ends| count.add(ends, ends.agree(ends.rust.each_ref())));
        count
    }

    /// Over others' answers to pairs, which must agree and be the Rust's.
    pub fn held<'a>(
        pairs: impl IntoIterator<Item = &'a Ends>,
        mut answers: impl FnMut(&Ends) -> [Answer; 2],
    ) -> Count {
        let mut count = Count::default();
        for ends in pairs {
            count.add(ends, ends.hold(answers(ends).each_ref()));
        }
        count
    }

    /// Counts a pair, which must agree.
    pub fn add(&mut self, ends: &Ends, outcome: Result<usize, Difference>) {
        self.same += outcome.unwrap_or_else(|why| panic!("pair {}: {why:?}", self.pairs));
        self.pairs += 1;
        self.other_counts += (ends.rust[0].inexact != ends.rust[1].inexact) as usize;
        let [retention, mobility] = ends.rust[0].fits;
        *self.retention.entry(retention).or_default() += 1;
        *self.mobility.entry(mobility).or_default() += 1;
    }

    /// Demands so many rows at both ends, pairs whose counts differ, so that a rule about them would be wrong, and that
    /// each number answers a fit of each model.
    pub fn at_least(&self, same: usize, who: &str) {
        println!("{who}: {self:?}");
        assert!(same <= self.same && 20 <= self.other_counts);
        for fits in [&self.retention, &self.mobility] {
            assert!([0, 8, 9].iter().all(|number| fits.contains_key(number)));
        }
    }
}
