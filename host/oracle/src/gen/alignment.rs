//! Batches for the alignment: plain ones, and ones with nasty times, labels and q.

use super::pools::{edge32, nan32};
use crate::alignment::{write_rows, Columns, Row};
use crate::rng::Rng;
use crate::text::Output;
use sage::database::PeptideIx;

/// Rows of so many files and peptides.
pub struct Rows {
    pub files: usize,
    pub peptides: usize,
    pub rows: Vec<Row>,
}

/// All batches: the number of them, then each.
pub fn cases() -> String {
    let mut out = Output::default();
    let batches = batches();
    out.number(batches.len());
    for batch in &batches {
        out.number(batch.files);
        out.number(batch.peptides);
        out.number(batch.rows.len());
        write_rows(&mut out, &batch.rows, Columns::Alignment);
    }
    out.text
}

/// The number of batches.
pub fn count() -> usize {
    batches().len()
}

/// The families.
fn batches() -> Vec<Rows> {
    let mut r = Rng::new(0xA119);
    let mut all = examples();
    for i in 0..110 {
        let (files, peptides, rows) = (r.range(1, 8), r.range(1, 30), r.range(0, 10 + i));
        all.push(plain(&mut r, files, peptides, rows));
    }
    all.extend((0..90).map(|_| with_nasty_times(&mut r, 6)));
    all.extend((0..60).map(|_| with_nasty_times(&mut r, 1)));
    all.extend((0..30).map(|_| sparse(&mut r)));
    all.extend((0..20).map(|_| zeros(&mut r)));
    all.extend((0..15).map(|_| without_training(&mut r)));
    all.extend((0..40).map(|_| level(&mut r)));
    all.push(plain(&mut r, 1024, 3, 40));
    all.push(plain(&mut r, 40, 200, 900));
    // where the library takes larger arrays, and as many files as may be
    all.push(plain(&mut r, 256, 30, 300));
    all.push(plain(&mut r, 257, 30, 300));
    all.push(plain(&mut r, 4096, 2, 500));
    all
}

/// A batch of any family.
pub fn any(r: &mut Rng) -> Rows {
    match r.below(9) {
        0..=2 => {
            let (files, peptides, rows) = (r.range(1, 12), r.range(1, 60), r.range(0, 200));
            plain(r, files, peptides, rows)
        }
        3 => with_nasty_times(r, 6),
        4 => with_nasty_times(r, 1),
        5 => sparse(r),
        6 => zeros(r),
        7 => without_training(r),
        _ => level(r),
    }
}

/// A training row of a file, a peptide and a time.
pub fn training(file: usize, peptide: u32, rt: f32) -> Row {
    Row { label: 1, rt, ..Row::new(file, PeptideIx(peptide)) }
}

/// The batches that document 01 names, and sums that depend on the order of the files.
fn examples() -> Vec<Rows> {
    let of = |files, peptides, rows: &[Row]| {
        let rows = rows.to_vec();
        Rows { files, peptides, rows }
    };
    let q = |bits| f32::from_bits(bits);
    let lines = [(0, 0, 5.0), (0, 1, 10.0), (1, 0, 10.0), (1, 1, 20.0)];
    vec![
        of(1, 0, &[]),
        of(3, 2, &[]),
        of(1, 1, &[training(0, 0, 10.0)]),
        of(1, 1, &[training(0, 0, 9.2)]),
        of(1, 1, &[training(0, 0, -3.0)]),
        of(1, 1, &[training(0, 0, 5E9)]),
        of(1, 1, &[Row { q: q(0x3C23_D70A), ..training(0, 0, 10.0) }]),
        of(1, 1, &[Row { q: q(0x3C23_D70B), ..training(0, 0, 10.0) }]),
        of(2, 2, &lines.map(|(file, peptide, rt)| training(file, peptide, rt))),
        of(3, 1, &cancelling([8.0, -8.0, 1E-20])),
        of(3, 1, &cancelling([1E-20, 8.0, -8.0])),
    ]
}

/// One peptide's times in three files whose longest is 8: 1 and -1 and little, kept or dropped by order.
fn cancelling(times: [f32; 3]) -> Vec<Row> {
    let own = (0..3).rev().map(|file| training(file, 0, times[file]));
    let outside = (0..3).map(|file| Row { label: -1, ..training(file, 0, 8.0) });
    own.chain(outside).collect()
}

/// Times that run along a line of their own in each file, some rows outside the training set.
pub fn plain(r: &mut Rng, files: usize, peptides: usize, rows: usize) -> Rows {
    let lengths: Vec<f64> = (0..files).map(|_| 20.0 + 100.0 * r.unit()).collect();
    let places: Vec<f64> = (0..peptides).map(|_| r.unit()).collect();
    let row = |r: &mut Rng| {
        let (file, peptide) = (r.below(files), r.below(peptides));
        let time = lengths[file] * (0.9 * places[peptide] + 0.05 * r.unit());
        let label = if r.one_in(5) { -1 } else { 1 };
        let q = if r.one_in(6) { r.unit() * 0.5 } else { r.unit() * 0.01 } as f32;
        Row { label, q, charge: r.range(1, 4) as u8, ..training(file, peptide as u32, time as f32) }
    };
    Rows { files, peptides, rows: (0..rows).map(|_| row(r)).collect() }
}

/// A plain batch in which one row in `part` has a nasty time, and some a nasty label or q.
fn with_nasty_times(r: &mut Rng, part: usize) -> Rows {
    let (files, peptides, rows) = (r.range(1, 5), r.range(1, 8), r.range(1, 40));
    let mut batch = plain(r, files, peptides, rows);
    for row in &mut batch.rows {
        if r.one_in(part) {
            row.rt = nasty_time(r);
        }
        if r.one_in(8) {
            row.q = nasty_q(r);
        }
        if r.one_in(12) {
            row.label = other_label(r);
        }
    }
    batch
}

/// Any edge, NaNs with payloads, times about 2^32, negative ones, zeros, whole numbers and neighbours.
pub fn nasty_time(r: &mut Rng) -> f32 {
    let whole = r.range(0, 60) as f32;
    match r.below(9) {
        0 => f32::from_bits(edge32(r)),
        1 => f32::from_bits(nan32(r) | (r.bits() as u32) << 31),
        2 => r.pick(&[4294967040.0, 4294967296.0, 4294967808.0, 5E9, 1E20, 4294966784.0]),
        3 => -whole,
        4 => r.pick(&[0.0, -0.0]),
        5 => whole,
        6 => f32::from_bits((whole + 1.0).to_bits() + 1),
        7 => f32::from_bits((whole + 1.0).to_bits() - 1),
        _ => r.pick(&[f32::INFINITY, f32::NEG_INFINITY, -0.5, 1E-40, -1E-40]),
    }
}

/// A label that does not train.
pub(super) fn other_label(r: &mut Rng) -> i32 {
    r.pick(&[0, 2, -1, i32::MIN, i32::MAX, 257])
}

/// A q about the border, a zero, an infinity or a NaN.
pub fn nasty_q(r: &mut Rng) -> f32 {
    let nan = nan32(r);
    f32::from_bits(r.pick(&[
        0x3C23_D70A,
        0x3C23_D70B,
        0x3C23_D709,
        0x8000_0000,
        0xFF80_0000,
        0x7F80_0000,
        1,
        nan,
        nan | 1 << 31,
    ]))
}

/// More files and peptides than rows, so that many have none.
fn sparse(r: &mut Rng) -> Rows {
    let (files, peptides, rows) = (r.range(5, 30), r.range(20, 200), r.range(0, 12));
    let mut batch = plain(r, files, peptides, rows);
    if r.one_in(2) {
        batch.rows.iter_mut().for_each(|row| row.file = row.file / 3 * 3 % files);
    }
    batch
}

/// Few peptides with times out of zeros, opposites and NaNs, many in one file: means that drop out.
fn zeros(r: &mut Rng) -> Rows {
    let mut batch = plain(r, 2, 4, 14);
    for row in &mut batch.rows {
        row.rt = r.pick(&[0.0, -0.0, 5.0, -5.0, f32::NAN, -f32::NAN, 10.0]);
    }
    batch
}

/// One time for all peptides of a file: the slope is what rounding leaves of the sums, so that every
/// rounding is seen in its f32.
pub(super) fn level(r: &mut Rng) -> Rows {
    let (files, peptides) = (r.range(2, 4), r.range(3, 30));
    let mut rows = vec![];
    for file in 0..files {
        let rt = 90.0 * r.unit() as f32;
        rows.extend((0..peptides as u32).map(|peptide| training(file, peptide, rt)));
        rows.push(Row { label: -1, ..training(file, 0, 100.0 * r.unit() as f32) });
    }
    rows.retain(|_| !r.one_in(4));
    Rows { files, peptides, rows }
}

/// No row trains.
fn without_training(r: &mut Rng) -> Rows {
    let rows = r.range(1, 20);
    let mut batch = plain(r, 3, 5, rows);
    for row in &mut batch.rows {
        match r.one_in(2) {
            true => row.label = r.pick(&[-1, 0, 2]),
            false => row.q = r.pick(&[f32::from_bits(0x3C23_D70B), f32::NAN, 1.0]),
        }
    }
    batch
}
