//! Pairs for the rule about edits in which the peptide tables differ too. A row has its peptide's name here,
//! and a table the names in their order: a peptide's number is the place of its name.
//!
//! In a host's pairs the names are the host's own numbers, and the table of both ends is all its peptides.

use super::edits::{batch, trains, Edit, List};
use super::run::{nasty_peptide, peptide};
use super::{alignment, run};
use crate::alignment::Row;
use crate::rng::Rng;
use crate::run::Batch;
use sage::database::PeptideIx;
use sage::peptide::Peptide;
use std::collections::BTreeSet;

/// Peptides with their names.
pub type Table = Vec<(u32, Peptide)>;

/// The table of each end, rows, edits of them, and the rows that they leave.
pub struct TablePair {
    pub files: usize,
    pub tables: [Table; 2],
    pub before: Vec<Row>,
    pub edits: Vec<Edit>,
    pub after: Vec<Row>,
}

impl TablePair {
    /// Both ends as batches.
    pub fn ends(&self) -> [Batch; 2] {
        let [before, after] = &self.tables;
        [numbered(self.files, before, &self.before), numbered(self.files, after, &self.after)]
    }
}

/// A batch of rows that have names.
fn numbered(files: usize, table: &[(u32, Peptide)], rows: &[Row]) -> Batch {
    let row = |row: &Row| {
        let place = table.iter().position(|(name, _)| *name == row.peptide.0);
        Row { peptide: PeptideIx(place.expect("a peptide of the table") as u32), ..*row }
    };
    let peptides = table.iter().map(|(_, peptide)| peptide.clone()).collect();
    Batch { files, peptides, rows: rows.iter().map(row).collect() }
}

/// So many pairs of a host's rows, with one table in rising order of its numbers.
pub fn hosts(seed: u64, n: usize) -> Vec<TablePair> {
    let mut r = Rng::new(seed);
    (0..n).map(|i| host(&mut r, i)).collect()
}

fn host(r: &mut Rng, i: usize) -> TablePair {
    let (files, mut table, rows) = named(r, i, numbers);
    table.sort_unstable_by_key(|(number, _)| *number);
    edited(r, i, files, [table.clone(), table], rows)
}

/// So many pairs with two tables, in which the peptides that training rows have are the same and in one order.
pub fn tables(seed: u64, n: usize) -> Vec<TablePair> {
    let mut r = Rng::new(seed);
    (0..n).map(|i| two_tables(&mut r, i)).collect()
}

fn two_tables(r: &mut Rng, i: usize) -> TablePair {
    let (files, table, rows) = named(r, i, |_, n| (0..n as u32).collect());
    let before = r.shuffled(table);
    let after = altered(r, &before, &rows);
    edited(r, i, files, [before, after], rows)
}

/// The rows of a batch by the peptides' names, and its table with more peptides. Some rows outside have one of
/// four peptides that no training row has.
fn named(
    r: &mut Rng,
    i: usize,
    names: fn(&mut Rng, usize) -> Vec<u32>,
) -> (usize, Table, Vec<Row>) {
    let Batch { files, mut peptides, mut rows } = match i % 9 {
        2 => run::unsolvable(r, i / 9),
        4 => level(r),
        _ => batch(r, i),
    };
    let own = peptides.len();
    peptides.extend((0..r.range(10, 16)).map(|_| any_peptide(r)));
    let names = names(r, peptides.len());
    for row in &mut rows {
        let outside = !trains(row) && r.one_in(2);
        let number = if outside { own + r.below(4) } else { row.peptide.0 as usize };
        row.peptide.0 = names[number];
    }
    (files, names.into_iter().zip(peptides).collect(), rows)
}

/// A batch in whose records the order of the peptides shows: the alignment's sums go by it.
fn level(r: &mut Rng) -> Batch {
    let alignment::Rows { files, peptides, rows } = alignment::level(r);
    let row = |row| Row { charge: 2, ims: r.unit() as f32, ..row };
    let rows = rows.into_iter().map(row).collect();
    Batch { rows, ..run::batch(r, files, peptides, 0) }
}

fn any_peptide(r: &mut Rng) -> Peptide {
    match r.one_in(3) {
        true => nasty_peptide(r),
        false => peptide(r),
    }
}

/// A host's numbers, each once and in no order: near each other or far apart, now and then with 0 and the
/// largest.
fn numbers(r: &mut Rng, n: usize) -> Vec<u32> {
    let past = r.pick(&[2 * n as u64, 10_000, 1 << 24, 1 << 32]);
    let mut numbers = BTreeSet::new();
    if r.one_in(3) {
        numbers.extend([0, u32::MAX]);
    }
    while numbers.len() < n {
        numbers.insert((r.bits() % past) as u32);
    }
    r.shuffled(numbers.into_iter().collect())
}

/// A table after another: of the peptides that no training row has some are taken out, altered and moved, and
/// new ones are put in.
fn altered(r: &mut Rng, before: &[(u32, Peptide)], rows: &[Row]) -> Table {
    let stays = |name: &u32| rows.iter().any(|row| trains(row) && row.peptide.0 == *name);
    let mut table = before.to_vec();
    table.retain(|(name, _)| stays(name) || !r.one_in(4));
    for (_, peptide) in table.iter_mut().filter(|(name, _)| !stays(name)) {
        let other = any_peptide(r);
        match r.below(9) {
            0 => peptide.sequence = other.sequence,
            1 => peptide.monoisotopic = other.monoisotopic,
            2 => *peptide = other,
            _ => {}
        }
    }
    for _ in 0..r.range(2, 8) {
        let free: Vec<usize> = (0..table.len()).filter(|&at| !stays(&table[at].0)).collect();
        if !free.is_empty() {
            let moved = table.remove(r.pick(&free));
            table.insert(r.below(table.len() + 1), moved);
        }
    }
    for i in 0..r.range(1, 4) {
        let name = (before.len() + i) as u32;
        table.insert(r.below(table.len() + 1), (name, any_peptide(r)));
    }
    table
}

/// Pair `i`, with edits of every sort and of the rows' peptides.
fn edited(r: &mut Rng, i: usize, files: usize, tables: [Table; 2], before: Vec<Row>) -> TablePair {
    let numbers = tables[1].iter().map(|(name, _)| *name).collect();
    let mut list = List { files, numbers, rows: before.clone(), edits: vec![] };
    list.edit(r, i);
    list.take(r);
    (0..3).for_each(|side| list.bring(r, side));
    (0..4).for_each(|turn| list.rewrite(r, turn % 2 == 0));
    list.restore(r, &before);
    TablePair { files, tables, before, edits: list.edits, after: list.rows }
}

impl List {
    /// Whether a training row has a peptide.
    fn is_trained(&self, name: u32) -> bool {
        self.rows.iter().any(|row| trains(row) && row.peptide.0 == name)
    }

    /// Removes every row of a peptide that no training row has.
    fn take(&mut self, r: &mut Rng) {
        let mut names: Vec<u32> = self.rows.iter().map(|row| row.peptide.0).collect();
        names.retain(|name| !self.is_trained(*name));
        if names.is_empty() {
            return;
        }
        let name = r.pick(&names);
        for at in (0..self.rows.len()).rev() {
            if self.rows[at].peptide.0 == name {
                self.push(Edit::Remove(at));
            }
        }
    }

    /// Adds a row of a peptide that no row has and whose place is below those of the peptides that training
    /// rows have, between them or above them, as `side` says.
    fn bring(&mut self, r: &mut Rng, side: usize) {
        let n = self.numbers.len();
        let trained = |at: &usize| self.is_trained(self.numbers[*at]);
        let (first, last) = ((0..n).find(trained), (0..n).rfind(trained));
        let (first, last) = (first.unwrap_or(n), last.unwrap_or(n));
        let mut names = self.numbers[[0..first, first..last, last..n][side].clone()].to_vec();
        names.retain(|name| self.rows.iter().all(|row| row.peptide.0 != *name));
        if !names.is_empty() {
            let row = Row { peptide: PeptideIx(r.pick(&names)), ..self.row(r) };
            self.push(Edit::Add(r.below(self.rows.len() + 1), row));
        }
    }

    /// Gives a row outside another peptide, or another label and q.
    fn rewrite(&mut self, r: &mut Rng, peptide: bool) {
        let outside = self.outside();
        if outside.is_empty() {
            return;
        }
        let at = r.pick(&outside);
        let (row, other) = (self.rows[at], self.row(r));
        self.push(match peptide {
            true => Edit::Rewrite(at, Row { peptide: other.peptide, ..row }),
            false => Edit::Rewrite(at, Row { label: other.label, q: other.q, ..row }),
        });
    }
}
