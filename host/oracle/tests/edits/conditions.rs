//! The pairs meet the rule's conditions, and what they are for occurs in them.

use crate::ends::{all_fields, fields, host_pairs, pairs, table_pairs, without_number};
use oracle::alignment::Row;
use oracle::gen::edits::{longest, trains, Edit};
use oracle::gen::tables::TablePair;
use oracle::run::Batch;
use sage::peptide::Peptide;
use std::collections::{BTreeMap, BTreeSet};

/// How often each thing occurs.
#[derive(Default, Debug)]
struct Counts(BTreeMap<&'static str, usize>);

impl Counts {
    fn count(&mut self, what: &'static str, occurs: bool) {
        *self.0.entry(what).or_default() += occurs as usize;
    }

    /// Demands so many of each.
    fn at_least(&self, least: usize, demanded: &[&str]) {
        for what in demanded {
            assert!(least <= self.0[what], "{what}: {}", self.0[what]);
        }
    }
}

/// Whether a row is of a file and a peptide of the batch.
fn is_in(batch: &Batch, row: &Row) -> bool {
    row.file < batch.files && (row.peptide.0 as usize) < batch.peptides.len()
}

fn training(rows: &[Row]) -> impl Iterator<Item = &Row> {
    rows.iter().filter(|row| trains(row))
}

/// The names or numbers of the peptides that rows have.
fn names<'a>(rows: impl IntoIterator<Item = &'a Row>) -> BTreeSet<u32> {
    rows.into_iter().map(|row| row.peptide.0).collect()
}

/// The training rows of a batch in order, each with the place of its peptide's number among theirs in the place
/// of the number, and with what the table says of the peptide.
fn with_places(batch: &Batch) -> Vec<(Vec<u64>, Vec<u64>)> {
    let numbers = names(training(&batch.rows));
    let place = |row: &Row| {
        let mut row = *row;
        row.peptide.0 = numbers.range(..row.peptide.0).count() as u32;
        fields(&row)
    };
    let all = batch.rows.iter().zip(without_number(batch)).filter(|(row, _)| trains(row));
    all.map(|(row, mark)| (place(row), mark)).collect()
}

/// The conditions on the ends: files, longest times and training rows are the same, and the peptides that
/// training rows have are the same and in one order.
fn ends_meet(before: &Batch, after: &Batch) {
    assert_eq!(before.files, after.files);
    assert_eq!(with_places(before), with_places(after));
    for file in 0..before.files {
        assert_eq!(longest(&before.rows, file), longest(&after.rows, file));
    }
    assert!(before.rows.iter().all(|row| is_in(before, row)));
    assert!(after.rows.iter().all(|row| is_in(after, row)));
    assert_ne!(all_fields(&before.rows), all_fields(&after.rows));
}

/// The condition on the edits: each names and brings only rows outside the training set, and the last leaves
/// `after`. A list in between may have rows that are not `good`.
fn edits_meet(
    counts: &mut Counts,
    [before, after]: [&[Row]; 2],
    edits: &[Edit],
    good: impl Fn(&Row) -> bool,
) {
    let mut rows = before.to_vec();
    for edit in edits {
        let (sort, named, brought) = match edit {
            Edit::Rewrite(at, row) => ("rewrite", Some(rows[*at]), Some(row)),
            Edit::Add(_, row) => ("add", None, Some(row)),
            Edit::Remove(at) => ("remove", Some(rows[*at]), None),
            Edit::Move(from, _) => ("move", Some(rows[*from]), None),
        };
        assert!(!named.is_some_and(|row| trains(&row)), "a row that trains is edited");
        assert!(!brought.is_some_and(trains), "a row that trains is brought");
        edit.apply(&mut rows);
        counts.count(sort, true);
        let both = named.zip(brought);
        counts.count("another peptide", both.is_some_and(|(old, new)| old.peptide != new.peptide));
        counts.count("refused in between", !rows.iter().all(&good));
    }
    assert_eq!(all_fields(&rows), all_fields(after));
    assert_eq!(all_fields(training(before)), all_fields(training(after)));
}

/// What a table says of a peptide, to the bit.
fn says(peptide: &Peptide) -> (&[u8], u32) {
    (&peptide.sequence, peptide.monoisotopic.to_bits())
}

fn table(batch: &Batch) -> Vec<(&[u8], u32)> {
    batch.peptides.iter().map(says).collect()
}

#[test]
fn the_pairs_meet_the_rules_conditions() {
    let mut counts = Counts::default();
    for pair in pairs() {
        let (before, after) = (&pair.before, &pair.after);
        ends_meet(before, after);
        let rows = [&before.rows[..], &after.rows];
        edits_meet(&mut counts, rows, &pair.edits, |row| is_in(before, row));
        assert_eq!(table(before), table(after));
        for row in &after.rows {
            counts.count("NaN q", row.label == 1 && row.q.is_nan());
            counts.count("label -1", row.label == -1 && row.q <= 0.01);
            counts.count("q just above", row.label == 1 && row.q.to_bits() == 0x3C23_D70B);
        }
    }
    println!("one table: {counts:?}");
    counts.at_least(40, &["rewrite", "add", "remove", "move"]);
    counts.at_least(40, &["NaN q", "label -1", "q just above"]);
    counts.at_least(10, &["refused in between"]);
}

/// Counts what happens to the peptides that rows have.
fn count_peptides(counts: &mut Counts, pair: &TablePair) {
    let (before, after) = (names(&pair.before), names(&pair.after));
    let trained = names(training(&pair.before));
    let place = |end: usize, name: &u32| pair.tables[end].iter().position(|(n, _)| n == name);
    for name in before.difference(&after) {
        counts.count("taken", true);
        counts.count("taken out of the table", place(1, name).is_none());
    }
    for name in after.difference(&before) {
        let below = trained.iter().filter(|other| place(1, other) < place(1, name)).count();
        counts.count("brought below", below == 0 && !trained.is_empty());
        counts.count("brought between", 0 < below && below < trained.len());
        counts.count("brought above", below == trained.len() && !trained.is_empty());
        counts.count("put into the table", place(0, name).is_none());
    }
    for name in before.intersection(&after).filter(|name| !trained.contains(name)) {
        let says = |end: usize| place(end, name).map(|at| says(&pair.tables[end][at].1));
        let below = |end: usize| trained.iter().map(move |t| place(end, t) < place(end, name));
        counts.count("altered", says(0) != says(1));
        counts.count("moved", below(0).ne(below(1)));
    }
}

/// Counts how often a row is at both ends but for its peptide's number, and how often but for its label or q.
fn count_rows(counts: &mut Counts, before: &Batch, after: &Batch) {
    let label = |row: &Row| (row.label, row.q.to_bits());
    for (row, mark) in before.rows.iter().zip(without_number(before)) {
        for (other, theirs) in after.rows.iter().zip(without_number(after)) {
            counts.count("another number", mark == theirs && row.peptide != other.peptide);
            counts.count("another label or q", mark == theirs && label(row) != label(other));
        }
    }
}

/// Demands the conditions on pairs, and counts.
fn tables_meet(pairs: &[TablePair]) -> Counts {
    let mut counts = Counts::default();
    for pair in pairs {
        let [before, after] = pair.ends();
        ends_meet(&before, &after);
        let tables = pair.tables.concat();
        let has = |row: &Row| tables.iter().any(|(name, _)| *name == row.peptide.0);
        let good = |row: &Row| row.file < pair.files && has(row);
        edits_meet(&mut counts, [&pair.before, &pair.after], &pair.edits, good);
        count_peptides(&mut counts, pair);
        count_rows(&mut counts, &before, &after);
    }
    counts
}

/// A host has one table, in rising order of its numbers, with more of them than rows have.
#[test]
fn the_hosts_pairs_meet_the_rules_conditions() {
    let pairs = host_pairs();
    let mut counts = tables_meet(&pairs);
    for pair in &pairs {
        let [before, after] = pair.ends();
        assert_eq!(table(&before), table(&after));
        let [numbers, same] = [0, 1].map(|end| pair.tables[end].iter().map(|(number, _)| *number));
        assert!(numbers.clone().eq(same) && numbers.clone().is_sorted_by(|a, b| a < b));
        let used = names(pair.before.iter().chain(&pair.after));
        assert!(used.len() < numbers.len());
        counts.count("number 0", used.contains(&0));
        counts.count("the largest number", used.contains(&u32::MAX));
        counts.count("other peptides", names(&pair.before) != names(&pair.after));
        let in_order = pair.before.is_sorted_by_key(|row| row.peptide.0);
        counts.count("rows in no order of the numbers", !in_order);
    }
    println!("hosts: {counts:?}");
    counts.at_least(40, &["rewrite", "add", "remove", "move", "another peptide", "taken"]);
    counts.at_least(40, &["brought below", "brought between", "brought above"]);
    counts.at_least(80, &["other peptides", "rows in no order of the numbers"]);
    counts.at_least(10, &["refused in between", "number 0", "the largest number"]);
}

#[test]
fn the_pairs_with_two_tables_meet_the_rules_conditions() {
    let counts = tables_meet(&table_pairs());
    println!("two tables: {counts:?}");
    counts.at_least(40, &["rewrite", "add", "remove", "move", "another peptide", "taken"]);
    counts.at_least(40, &["brought below", "brought between", "brought above"]);
    counts.at_least(40, &["put into the table", "taken out of the table", "altered", "moved"]);
    counts.at_least(40, &["another number", "another label or q"]);
}
