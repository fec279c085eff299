//! Whole runs: the alignment, both fits on it, and each fitted model's predictions and errors.

use crate::alignment::{align, read_rows, write_aligned, write_rows, Aligned, Columns, Row};
use crate::leaf::any_model;
use crate::narrow::written_exact;
use crate::solve::ridges;
use crate::text::{bits64, Output, Tokens};
use sage::database::IndexedDatabase;
use sage::ml::mobility_model::{self, MobilityModel};
use sage::ml::regression::LinearRegression;
use sage::ml::retention_model::{self, RetentionModel};
use sage::peptide::Peptide;
use sage::scoring::Feature;

/// The columns of the retention model, and the column of the log.
const RETENTION_COLUMNS: usize = 69;
const LOG_COLUMN: usize = RETENTION_COLUMNS - 2;

/// A run's input: the file count, the peptide table and the rows.
#[derive(Clone)]
pub struct Batch {
    pub files: usize,
    pub peptides: Vec<Peptide>,
    pub rows: Vec<Row>,
}

/// A fit's answer.
pub enum Fit {
    Solved { ridge: f64, r2: f64, n: usize, beta: Vec<f64> },
    NoTrainingRows,
    NotSolved,
}

impl Fit {
    /// From the model the Rust fitted, if it did, as (r2, beta), to `n` training rows.
    fn of(model: Option<(f64, Vec<f64>)>, n: usize) -> Fit {
        let failed = sage::take_failed_ridges();
        match model {
            Some((r2, beta)) => Fit::Solved { ridge: ridges()[failed], r2, n, beta },
            None if n == 0 => Fit::NoTrainingRows,
            None => Fit::NotSolved,
        }
    }
}

/// What a run gives; `aligned.features` hold the predictions and errors of the models that fit.
pub struct Run {
    pub aligned: Aligned,
    pub retention: Fit,
    pub mobility: Fit,
    /// How many predictions of the retention model are not exact; 0 where it does not fit.
    pub retention_inexact: usize,
    /// The same of the mobility model.
    pub mobility_inexact: usize,
}

/// The log that the retention model takes of a mass, as its source writes it.
pub fn log_mass(monoisotopic: f32) -> f64 {
    (monoisotopic as f64).ln_1p()
}

/// Runs a batch.
pub fn run(batch: &Batch) -> Run {
    let db = IndexedDatabase { peptides: batch.peptides.clone() };
    let mut aligned = align(batch.files, &batch.rows);
    let features = &mut aligned.features;
    let (retention, times) = fit_retention(&db, features);
    let (mobility, mobilities) = fit_mobility(&db, features);
    let fitted = retention_model::predict(&db, features).is_some();
    assert_eq!(fitted, matches!(retention, Fit::Solved { .. }));
    let fitted = mobility_model::predict(&db, features).is_some();
    assert_eq!(fitted, matches!(mobility, Fit::Solved { .. }));
    let time = |model: &RetentionModel, f: &Feature| {
        written_exact(model.predict_peptide(&db, f).clamp(0.0, 1.0), f.predicted_rt)
    };
    let ims = |model: &MobilityModel, f: &Feature| {
        written_exact(model.predict_peptide(&db, f).clamp(0.0, 2.0), f.predicted_ims)
    };
    let retention_inexact = inexact(times, features, time);
    let mobility_inexact = inexact(mobilities, features, ims);
    Run { aligned, retention, mobility, retention_inexact, mobility_inexact }
}

/// The rows whose prediction by the model, if there is one, is not exact.
fn inexact<M>(
    model: Option<M>,
    features: &[Feature],
    exact: impl Fn(&M, &Feature) -> bool,
) -> usize {
    model.map_or(0, |model| features.iter().filter(|f| !exact(&model, f)).count())
}

/// The rows that train, by the models' own test.
fn training_rows(features: &[Feature]) -> usize {
    features.iter().filter(|f| f.label == 1 && f.spectrum_q <= 0.01).count()
}

fn fit_retention(db: &IndexedDatabase, features: &[Feature]) -> (Fit, Option<RetentionModel>) {
    sage::take_failed_ridges();
    let model = RetentionModel::fit(db, features);
    let told = model.as_ref().map(|m| (m.r2, m.probe_beta().to_vec()));
    (Fit::of(told, training_rows(features)), model)
}

/// The retention model's fit where a peptide's log is any number: sage's regression over sage's design rows, with the
/// log in its column.
pub fn fit_with_logs(peptides: &[Peptide], logs: &[f64], features: &[Feature]) -> Fit {
    let model = any_model();
    let embed = |f: &Feature| {
        let mut row = model.probe_embed(&peptides[f.peptide_idx.0 as usize]);
        row[LOG_COLUMN] = logs[f.peptide_idx.0 as usize];
        <[f64; RETENTION_COLUMNS]>::try_from(row).expect("a design row")
    };
    sage::take_failed_ridges();
    let trains = |f: &Feature| f.label == 1 && f.spectrum_q <= 0.01;
    let fit = LinearRegression::fit(features, trains, embed, |f| f.aligned_rt as f64);
    Fit::of(fit.map(|fit| (fit.r2, fit.beta)), training_rows(features))
}

fn fit_mobility(db: &IndexedDatabase, features: &[Feature]) -> (Fit, Option<MobilityModel>) {
    sage::take_failed_ridges();
    let model = MobilityModel::fit(db, features);
    let told = model.as_ref().map(|m| (m.r2, m.probe_beta().to_vec()));
    (Fit::of(told, training_rows(features)), model)
}

impl Batch {
    /// Reads files, peptides, letters and rows, the peptide table, and the rows by column.
    pub fn read(input: &mut Tokens) -> Result<Batch, String> {
        let (files, peptides) = (input.number()?, input.number()?);
        let (letters, n) = (input.number()?, input.number()?);
        let peptides = read_peptides(input, peptides, letters)?;
        let rows = read_rows(input, n, files, peptides.len(), Columns::Run)?;
        Ok(Batch { files, peptides, rows })
    }

    /// Writes what `read` reads.
    pub fn write(&self, out: &mut Output) {
        let letters: usize = self.peptides.iter().map(|p| p.sequence.len()).sum();
        out.number(self.files);
        out.number(self.peptides.len());
        out.number(letters);
        out.number(self.rows.len());
        let mut offset = 0;
        out.number(0);
        for peptide in &self.peptides {
            offset += peptide.sequence.len();
            out.number(offset);
        }
        let all = self.peptides.iter().flat_map(|p| &p.sequence);
        all.for_each(|&letter| out.number(letter as usize));
        self.peptides.iter().for_each(|p| out.bits(p.monoisotopic.to_bits() as u64));
        self.peptides.iter().for_each(|p| out.f64(log_mass(p.monoisotopic)));
        write_rows(out, &self.rows, Columns::Run);
    }
}

/// Reads offsets, letters, masses and logs; the logs must be those of the masses.
fn read_peptides(input: &mut Tokens, n: usize, letters: usize) -> Result<Vec<Peptide>, String> {
    let offsets = input.column(n + 1, Tokens::number)?;
    let letters = input.column(letters, |t| t.at_most(255).map(|x| x as u8))?;
    let masses = input.column(n, Tokens::f32)?;
    let logs = input.column(n, Tokens::f64)?;
    if offsets[0] != 0 || offsets[n] != letters.len() {
        return Err("offsets that don't span the letters".to_string());
    }
    if letters.iter().any(|x| !x.is_ascii_uppercase()) {
        return Err("a letter outside A to Z".to_string());
    }
    let peptide = |i: usize| {
        let sequence = letters.get(offsets[i]..offsets[i + 1]).ok_or("malformed offsets")?.to_vec();
        match bits64(logs[i]) == bits64(log_mass(masses[i])) {
            true => Ok(Peptide { sequence, monoisotopic: masses[i] }),
            false => Err(format!("the log of mass {i} is {:016X}", bits64(log_mass(masses[i])))),
        }
    };
    (0..n).map(peptide).collect()
}

/// Writes 8, 9 or 0 and the number of predictions that are not exact; with 0 the ridge, r2, n and the coefficients.
fn write_fit(out: &mut Output, fit: &Fit, inexact: usize) {
    out.number(match fit {
        Fit::Solved { .. } => 0,
        Fit::NoTrainingRows => 8,
        Fit::NotSolved => 9,
    });
    out.number(inexact);
    if let Fit::Solved { ridge, r2, n, beta } = fit {
        out.f64(*ridge);
        out.f64(*r2);
        out.number(*n);
        beta.iter().for_each(|&x| out.f64(x));
    }
}

/// Answers one run: 0, records and aligned times, both fits, and the fitted models' columns.
pub fn answer(input: &mut Tokens, out: &mut Output) -> Result<(), String> {
    let run = run(&Batch::read(input)?);
    let features = &run.aligned.features;
    out.number(0);
    write_aligned(out, &run.aligned);
    write_fit(out, &run.retention, run.retention_inexact);
    write_fit(out, &run.mobility, run.mobility_inexact);
    if let Fit::Solved { .. } = run.retention {
        features.iter().for_each(|f| out.f32(f.predicted_rt));
        features.iter().for_each(|f| out.f32(f.delta_rt_model));
    }
    if let Fit::Solved { .. } = run.mobility {
        features.iter().for_each(|f| out.f32(f.predicted_ims));
        features.iter().for_each(|f| out.f32(f.delta_ims_model));
    }
    Ok(())
}

/// Answers masses (f32) by their logs (f64).
pub fn answer_logs(input: &mut Tokens, out: &mut Output) -> Result<(), String> {
    while !input.is_empty() {
        out.f64(log_mass(input.f32()?));
    }
    Ok(())
}
