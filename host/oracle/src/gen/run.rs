//! Batches for whole runs: plain ones, ones with nasty peptides, times, charges and mobilities, and
//! pairs that differ by edits.

use super::alignment::{nasty_q, nasty_time, plain};
use super::edits;
use super::pools::edge32;
use crate::rng::Rng;
use crate::run::{run, Batch, Fit};
use crate::solve::ridges;
use crate::text::Output;
use sage::mass::{monoisotopic, H2O, VALID_AA};
use sage::peptide::Peptide;

/// All batches: the number of them, then each.
pub fn cases() -> String {
    let mut out = Output::default();
    let batches = batches();
    out.number(batches.len());
    batches.iter().for_each(|batch| batch.write(&mut out));
    out.text
}

/// How many fits each ridge solves, and how many end with 8 or 9.
pub fn tally() -> String {
    let runs: Vec<_> = batches().iter().map(run).collect();
    let fits = |pick: fn(&crate::run::Run) -> &Fit| {
        let count =
            |test: &dyn Fn(&Fit) -> bool| runs.iter().map(pick).filter(|fit| test(fit)).count();
        let by_ridge = ridges().into_iter().map(|eps| {
            let solved = count(&|fit| matches!(fit, Fit::Solved { ridge, .. } if *ridge == eps));
            format!(" {eps:e}: {solved}")
        });
        let by_ridge: String = by_ridge.collect();
        let none = count(&|fit| matches!(fit, Fit::NoTrainingRows));
        format!("{by_ridge}, 8: {none}, 9: {}", count(&|fit| matches!(fit, Fit::NotSolved)))
    };
    format!(
        "{} runs, the last {} of them in pairs; retention{}; mobility{}",
        runs.len(),
        2 * edits::PAIRS,
        fits(|r| &r.retention),
        fits(|r| &r.mobility)
    )
}

/// The families.
fn batches() -> Vec<Batch> {
    let mut rng = Rng::new(0x2B47);
    let r = &mut rng;
    let mut all = vec![Batch { files: 1, peptides: vec![], rows: vec![] }, batch(r, 3, 5, 0)];
    for i in 0..56 {
        let (files, peptides) = (r.range(1, 4), r.range(2, 8 + i / 2));
        all.push(batch(r, files, peptides, 10 + i));
    }
    all.extend((0..10).map(|_| one_training_row(r)));
    all.extend((0..8).map(|_| without_training(r)));
    all.extend((0..32).map(|_| nasty_outside(r)));
    all.extend((0..24).map(|_| nasty_times(r)));
    all.extend((0..20).map(|_| nasty_mobilities(r)));
    all.extend((0..20).map(|i| unsolvable(r, i)));
    all.extend((0..12).map(|_| heavy(r)));
    all.extend(late());
    all.extend((0..4).map(|_| long(r)));
    all.extend((0..4).map(|_| odd_peptides(r)));
    all.push(batch(r, 3, 120, 300));
    all.push(batch(r, 5, 60, 400));
    all.extend(edits::stored().into_iter().flat_map(|pair| [pair.before, pair.after]));
    all
}

/// A batch of any family.
pub fn any(r: &mut Rng) -> Batch {
    let i = r.below(4);
    match r.below(12) {
        0..=2 => {
            let (files, peptides, rows) = (r.range(1, 4), r.range(2, 40), r.range(0, 120));
            batch(r, files, peptides, rows)
        }
        3 => one_training_row(r),
        4 => without_training(r),
        5 => nasty_outside(r),
        6 => nasty_times(r),
        7 => nasty_mobilities(r),
        8 => unsolvable(r, i),
        9 => heavy(r),
        10 => long(r),
        _ => odd_peptides(r),
    }
}

/// A plain batch; the mobilities follow mass and charge.
pub fn batch(r: &mut Rng, files: usize, peptides: usize, rows: usize) -> Batch {
    let mut rows = plain(r, files, peptides, rows).rows;
    let peptides: Vec<Peptide> = (0..peptides).map(|_| peptide(r)).collect();
    for row in &mut rows {
        let mass = peptides[row.peptide.0 as usize].monoisotopic;
        row.ims = 0.5 + mass / 4000.0 + 0.1 * row.charge as f32 + 0.02 * r.unit() as f32;
    }
    Batch { files, peptides, rows }
}

/// A peptide of common letters, with the mass of its letters.
pub(super) fn peptide(r: &mut Rng) -> Peptide {
    let length = r.range(4, 14);
    let mut sequence: Vec<u8> = (1..length).map(|_| r.pick(&VALID_AA[..20])).collect();
    sequence.push(r.pick(b"KR"));
    weighed(sequence)
}

/// A peptide with the mass of its letters and water.
fn weighed(sequence: Vec<u8>) -> Peptide {
    let monoisotopic = sequence.iter().fold(H2O, |sum, &letter| sum + monoisotopic(letter));
    Peptide { sequence, monoisotopic }
}

/// Short, long and empty peptides, letters without a mass, and masses at the edges.
pub(super) fn nasty_peptide(r: &mut Rng) -> Peptide {
    let length = r.pick(&[0, 1, 2, 3, 4, 5, 9, 40]);
    let letters: &[u8] = if r.one_in(2) { b"BJXZUO" } else { b"ABCDEFGHIJKLMNOPQRSTUVWXYZ" };
    let mut peptide = weighed((0..length).map(|_| r.pick(letters)).collect());
    if r.one_in(3) {
        peptide.monoisotopic = match r.below(3) {
            0 => f32::from_bits(edge32(r)),
            1 => r.pick(&[-1.0, -0.99999994, -1.0000001, -2.0, -0.0, 0.0]),
            _ => r.pick(&[f32::NAN, f32::INFINITY, f32::MAX, 1E-20]),
        };
    }
    peptide
}

/// Takes a row out of the training set, by its label or its q.
fn leave(r: &mut Rng, row: &mut crate::alignment::Row) {
    match r.one_in(2) {
        true => row.label = r.pick(&[-1, 0, 2, i32::MIN]),
        false => row.q = r.pick(&[f32::from_bits(0x3C23_D70B), f32::NAN, 1.0, f32::INFINITY]),
    }
}

/// One row trains.
pub fn one_training_row(r: &mut Rng) -> Batch {
    let mut batch = batch(r, 2, 4, 9);
    let only = r.below(9);
    for (i, row) in batch.rows.iter_mut().enumerate() {
        leave(r, row);
        if i == only {
            (row.label, row.q) = (1, 0.001);
        }
    }
    batch
}

/// No row trains.
pub fn without_training(r: &mut Rng) -> Batch {
    let rows = r.range(1, 12);
    let mut batch = batch(r, 2, 4, rows);
    batch.rows.iter_mut().for_each(|row| leave(r, row));
    batch
}

/// The second half of the peptides is nasty, and every row of theirs is outside the training set.
pub fn nasty_outside(r: &mut Rng) -> Batch {
    let (files, rows) = (r.range(1, 3), r.range(20, 60));
    let mut batch = batch(r, files, 16, rows);
    batch.peptides[8..].iter_mut().for_each(|peptide| *peptide = nasty_peptide(r));
    for row in batch.rows.iter_mut().filter(|row| 8 <= row.peptide.0) {
        leave(r, row);
        row.charge = r.pick(&[0, 1, 2, 255]);
        row.ims = if r.one_in(2) { f32::from_bits(edge32(r)) } else { row.ims };
        row.rt = if r.one_in(2) { nasty_time(r) } else { row.rt };
    }
    batch
}

/// Some rows, training ones too, with nasty times and q.
pub fn nasty_times(r: &mut Rng) -> Batch {
    let mut batch = batch(r, 3, 10, 40);
    for row in &mut batch.rows {
        if r.one_in(10) {
            row.rt = nasty_time(r);
        }
        if r.one_in(10) {
            row.q = nasty_q(r);
        }
    }
    batch
}

/// Some rows, training ones too, with nasty mobilities or the largest charge.
pub fn nasty_mobilities(r: &mut Rng) -> Batch {
    let mut batch = batch(r, 2, 10, 40);
    for row in &mut batch.rows {
        if r.one_in(8) {
            row.ims = f32::from_bits(edge32(r));
        }
        if r.one_in(8) {
            row.charge = 255;
        }
    }
    batch
}

/// A training row with an empty peptide, charge 0 or a mass that no sum survives.
pub fn unsolvable(r: &mut Rng, i: usize) -> Batch {
    let mut batch = batch(r, 2, 6, 20);
    let at = batch.rows[0].peptide.0 as usize;
    (batch.rows[0].label, batch.rows[0].q) = (1, 0.0);
    match i % 4 {
        0 => batch.peptides[at] = weighed(vec![]),
        1 => batch.rows[0].charge = 0,
        2 => batch.peptides[at].monoisotopic = r.pick(&[f32::NAN, f32::INFINITY, -1.0, -3.0]),
        _ => batch.peptides[at].monoisotopic = r.pick(&[f32::MAX, -f32::MAX, 1E30]),
    }
    batch
}

/// Batches in which a fit needs a later ridge than the first, with seeds found by trial.
fn late() -> Vec<Batch> {
    let of = |make: fn(&mut Rng) -> Batch, seeds: &[u64]| -> Vec<Batch> {
        seeds.iter().map(|&seed| make(&mut Rng::new(seed))).collect()
    };
    let mut all = of(heavy, &[2, 3, 14, 21, 32, 39, 128, 147, 859]);
    all.extend(of(crowded, &[347, 544, 1094, 1658, 1680]));
    all.extend(of(long, &[231]));
    all
}

/// One mass so large that rounding leaves what a small ridge can't lift.
pub fn heavy(r: &mut Rng) -> Batch {
    let mut batch = batch(r, 2, 6, 16);
    let mass = format!("1e{}", r.range(8, 38)).parse();
    batch.peptides[0].monoisotopic = mass.expect("a power of ten");
    batch
}

/// Many rows of fewer peptides than columns.
fn crowded(r: &mut Rng) -> Batch {
    let (peptides, rows) = (r.range(30, 66), r.range(150, 250));
    batch(r, 3, peptides, rows)
}

/// Few long peptides of few letters and many rows: large counts, and columns that depend on others.
fn long(r: &mut Rng) -> Batch {
    let rows = r.range(60, 120);
    let mut batch = batch(r, 2, 5, rows);
    for peptide in &mut batch.peptides {
        let length = r.range(200, 255);
        *peptide = weighed((0..length).map(|_| r.pick(b"AACCGK")).collect());
    }
    batch
}

/// Peptides of every letter, of 255 letters and of few, all training.
fn odd_peptides(r: &mut Rng) -> Batch {
    let mut batch = batch(r, 2, 12, 40);
    for (i, peptide) in batch.peptides.iter_mut().enumerate() {
        let length = if i == 0 { 255 } else { r.range(1, 6) };
        *peptide = weighed((0..length).map(|_| r.pick(b"ABCDEFGHIJKLMNOPQRSTUVWXYZ")).collect());
    }
    batch
}
