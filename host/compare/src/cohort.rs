//! A cohort of many files: sizes that differ much, few peptides that nearly all files have and many that few have.

use oracle::alignment::Row;
use oracle::gen::alignment::Rows;
use oracle::rng::Rng;
use sage::database::PeptideIx;

const FILES: usize = 2_300;
const PEPTIDES: usize = 7_200;
/// The peptides that nearly all files have.
const COMMON: usize = 5;

/// So many rows of the cohort's files. Times run along a line of their own in each file.
pub fn batch(r: &mut Rng, rows: usize) -> Rows {
    let mut total = 0;
    let mut ends = vec![];
    for _ in 0..FILES {
        total += size(r);
        ends.push(total);
    }
    let lengths: Vec<f64> = (0..FILES).map(|_| 20.0 + 100.0 * r.unit()).collect();
    let places: Vec<f64> = (0..PEPTIDES).map(|_| r.unit()).collect();
    let row = |r: &mut Rng| {
        let at = r.below(total);
        let file = ends.partition_point(|&end| end <= at);
        let peptide = peptide(r, file);
        let rt = (lengths[file] * (0.9 * places[peptide] + 0.05 * r.unit())) as f32;
        let label = if r.one_in(5) { -1 } else { 1 };
        let q = if r.one_in(6) { r.unit() * 0.5 } else { r.unit() * 0.01 } as f32;
        Row { label, q, rt, ..Row::new(file, PeptideIx(peptide as u32)) }
    };
    Rows { files: FILES, peptides: PEPTIDES, rows: (0..rows).map(|_| row(r)).collect() }
}

/// A file's part of the rows: none for one file in 40, and ten times as much for one in 50.
fn size(r: &mut Rng) -> usize {
    let most = 1_000.0 * if r.one_in(50) { 10.0 } else { 1.0 };
    match r.one_in(40) {
        true => 0,
        false => 50 + (most * r.unit() * r.unit()) as usize,
    }
}

/// The peptide of a file's row: a common one for a row in four, else one that the files about this have.
fn peptide(r: &mut Rng, file: usize) -> usize {
    if r.one_in(4) {
        return r.below(COMMON);
    }
    let near = (300.0 * r.unit() * r.unit()) as usize;
    COMMON + (3 * file + near) % (PEPTIDES - COMMON)
}

/// What the batch holds, in a few words.
pub fn described(batch: &Rows) -> String {
    let mut rows = vec![0; batch.files];
    batch.rows.iter().for_each(|row| rows[row.file] += 1);
    let most = rows.iter().max().copied().unwrap_or(0);
    let empty = rows.iter().filter(|&&n| n == 0).count();
    let mut pairs: Vec<(u32, usize)> =
        batch.rows.iter().map(|row| (row.peptide.0, row.file)).collect();
    pairs.sort_unstable();
    pairs.dedup();
    let mut spread = vec![0; batch.peptides];
    pairs.iter().for_each(|(peptide, _)| spread[*peptide as usize] += 1);
    let within = |least: usize, end: usize| {
        spread.iter().filter(|&&files| least <= files && files < end).count()
    };
    format!(
        "{} rows, {} files × {} peptides; {empty} files without a row, {most} rows in the largest; \
         {} peptides in 2000 files or more, {} in 1 to 99, {} in none; {} pairs of a peptide and a file",
        batch.rows.len(),
        batch.files,
        batch.peptides,
        within(2_000, batch.files + 1),
        within(1, 100),
        within(0, 1),
        pairs.len()
    )
}
