//! Inputs at the limits, once.

use crate::align;
use crate::calls::{columns, Input, Model};
use crate::cohort;
use crate::models::{accepted, Outputs};
use crate::runs;
use oracle::gen::alignment::{plain, Rows};
use oracle::gen::run::batch;
use oracle::rng::Rng;
use oracle::run::run;
use std::time::Instant;

pub fn all() -> Result<String, String> {
    let start = Instant::now();
    let r = &mut Rng::new(7);
    aligned(r, 1_024, 16_384, 1_048_576)?;
    aligned(r, 16, 1_048_576, 1_048_576)?;
    aligned(r, 1, 1, 1_048_576)?;
    fitted(r, 1_048_576, None)?;
    fitted(r, 65_536, Some(255))?;
    too_many_rows(r)?;
    all_files(r)?;
    cohort(r)?;
    run_of_all_files(r)?;
    little_room(r)?;
    Ok(format!("compare: every bit alike at the limits ({} s)", start.elapsed().as_secs()))
}

fn aligned(r: &mut Rng, files: usize, peptides: usize, rows: usize) -> Result<(), String> {
    let batch = plain(r, files, peptides, rows);
    let mut out = align::Outputs::new(r, &batch);
    align::accepted(&batch, &columns(&batch.rows), &mut out)?;
    println!("align: {rows} rows, {files} files × {peptides} peptides");
    Ok(())
}

/// Both models on as many rows as may be, of as many peptides, or of peptides with so many letters.
fn fitted(r: &mut Rng, peptides: usize, letters: Option<usize>) -> Result<(), String> {
    let mut batch = batch(r, 16, peptides, 1_048_576);
    if let Some(n) = letters {
        for peptide in &mut batch.peptides {
            peptide.sequence = (0..n).map(|_| b'A' + r.below(26) as u8).collect();
        }
    }
    let want = run(&batch);
    let input = Input::new(&batch, want.aligned.times());
    for model in [Model::Retention, Model::Mobility] {
        let mut out = Outputs::new(r, model, input.rows.len());
        accepted(model, &input, &want, &mut out)?;
    }
    let mut out = runs::Outputs::new(r, &batch);
    runs::accepted(&batch, &input, &want, &mut out)?;
    let letters = input.table.letters.len();
    println!("models and run: 1048576 rows of {peptides} peptides, {letters} letters");
    Ok(())
}

fn too_many_rows(r: &mut Rng) -> Result<(), String> {
    let batch = plain(r, 1, 1, 1_048_577);
    let status = zorkamai::align(&columns(&batch.rows), 1, 1).map_err(|e| e.number());
    match status {
        Err(2) => Ok(()),
        other => Err(format!("1,048,577 rows: {:?}", other.map(|_| ()))),
    }
}

/// As many files and peptides as may be: aligned, and each way to damage the call, a cell too few of the work room
/// among them.
fn all_files(r: &mut Rng) -> Result<(), String> {
    let batch = plain(r, 4_096, 4_096, 1_048_576);
    let calls = align::compared(r, &batch)?;
    println!("align: 1048576 rows, 4096 files × 4096 peptides, and {} refused calls", calls - 1);
    Ok(())
}

fn cohort(r: &mut Rng) -> Result<(), String> {
    let batch = cohort::batch(r, 1_048_576);
    let mut out = align::Outputs::new(r, &batch);
    align::accepted(&batch, &columns(&batch.rows), &mut out)?;
    println!("align: {}", cohort::described(&batch));
    Ok(())
}

/// A run of as many files and peptides as may be, and with each slice one short.
fn run_of_all_files(r: &mut Rng) -> Result<(), String> {
    let batch = batch(r, 4_096, 4_096, 1_048_576);
    let want = run(&batch);
    let input = Input::new(&batch, want.aligned.times());
    let mut out = runs::Outputs::new(r, &batch);
    runs::accepted(&batch, &input, &want, &mut out)?;
    let mut out = runs::Outputs::new(r, &batch);
    let calls = runs::too_short(&input, batch.files, &mut out)?;
    println!("run: 1048576 rows, 4096 files × 4096 peptides, and {calls} refused calls");
    Ok(())
}

/// With little room: past a limit 2, though 3 would follow, and within the limits 3.
fn little_room(r: &mut Rng) -> Result<(), String> {
    let none = Rows { files: 1, peptides: 1, rows: vec![] };
    let (rows, mut out) = (columns(&none.rows), align::Outputs::new(r, &none));
    let numbers = [(4_097, 1, 2), (4_096, 4_097, 2), (4_095, 4_097, 3), (4_096, 4_096, 3)];
    for (files, peptides, status) in numbers {
        align::refused(&mut out, &rows, files, peptides, status)?;
        println!("align: {files} files × {peptides} peptides with little room is {status}");
    }
    let batch = batch(r, 1, 4_097, 0);
    let (input, mut out) = (Input::new(&batch, vec![]), runs::Outputs::new(r, &batch));
    for (files, status) in [(4_097, 2), (4_096, 2), (4_095, 3)] {
        runs::refused(&mut out, &input, files, status)?;
        println!("run: {files} files × 4097 peptides with little room is {status}");
    }
    Ok(())
}
