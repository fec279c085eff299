//! The inputs, in the form that each side takes, and a call of each side for each phase.

use crate::calls::{align, Input, Model, Records};
use crate::rust::{self, Rust};
use crate::{AllCores, Calls, Order, Phase, Side};
use oracle::gen::run::batch;
use oracle::rng::Rng;
use sage::ml::mobility_model::MobilityModel;
use sage::ml::retention_model::RetentionModel;
use sage::scoring::Feature;
use std::hint::black_box;
use zorkamai::{limits, mobility, raw};

/// Why a call on all cores has what it calls.
const MEASURED: &str = "all cores are measured";

/// Normal equations of random samples, with one right column.
pub struct System {
    n: usize,
    left: Vec<f64>,
    right: Vec<f64>,
    workspace: Vec<f64>,
    solution: Vec<f64>,
    all_cores: Option<AllCores>,
}

impl System {
    pub fn new(n: usize, all_cores: Option<AllCores>) -> System {
        let r = &mut Rng::new(n as u64);
        let mut left = vec![0.0; n * n];
        for _ in 0..3 * n {
            let sample: Vec<f64> = (0..n).map(|_| r.signed()).collect();
            for (i, cell) in left.iter_mut().enumerate() {
                *cell += sample[i / n] * sample[i % n];
            }
        }
        let right = (0..n).map(|_| r.signed()).collect();
        let (workspace, solution) = (vec![0.0; n * n + n], vec![0.0; n]);
        System { n, left, right, workspace, solution, all_cores }
    }

    pub fn call(&mut self, side: Side) {
        match side {
            Side::Rust => rust::solve(&self.left, &self.right, self.n),
            Side::Library => self.library(),
            Side::AllCores => {
                (self.all_cores.expect(MEASURED).solve)(&self.left, &self.right, self.n)
            }
        }
    }

    fn library(&mut self) {
        let (work, out) = (&mut self.workspace, &mut self.solution);
        black_box(raw::solve(&self.left, &self.right, self.n, 1, work, out).status);
    }
}

/// A batch, as the Rust and the library take it; and the room of the library's calls.
pub struct Work {
    files: usize,
    rust: Rust,
    all_cores: Option<Calls>,
    input: Input,
    workspace: Vec<f64>,
    lines: [Vec<f32>; 3],
    used: Vec<u32>,
    exact: [Vec<bool>; 3],
    beta: Vec<f64>,
    predicted: Vec<f32>,
    error: Vec<f32>,
}

impl Work {
    /// `n` rows of a tenth as many peptides, or of as many as the files leave, aligned on every side.
    pub fn new(files: usize, n: usize, order: Order, all_cores: Option<AllCores>) -> Work {
        let peptides = (n / 10).min(limits::CELLS / files);
        let mut batch = batch(&mut Rng::new(n as u64), files, peptides, n);
        match order {
            Order::Random => {}
            Order::File => batch.rows.sort_by_key(|row| row.file),
            Order::Peptide => batch.rows.sort_by_key(|row| row.peptide),
        }
        let mut work = Work {
            files,
            rust: Rust::new(&batch),
            all_cores: all_cores.map(|rust| (rust.batch)(&batch)),
            input: Input::new(&batch, vec![0.0; n]),
            workspace: vec![0.0; (files * peptides).max(mobility::WORKSPACE)],
            lines: [vec![0.0; files], vec![0.0; files], vec![0.0; files]],
            used: vec![0; files],
            exact: [vec![false; files], vec![false; files], vec![false; files]],
            beta: vec![0.0; mobility::COLUMNS],
            predicted: vec![0.0; n],
            error: vec![0.0; n],
        };
        work.call(Side::Rust, Phase::Align);
        work.call(Side::Library, Phase::Align);
        if all_cores.is_some() {
            work.call(Side::AllCores, Phase::Align);
        }
        work
    }

    pub fn call(&mut self, side: Side, phase: Phase) {
        match side {
            Side::Rust => self.rust.call(phase),
            Side::Library => self.library(phase),
            Side::AllCores => (self.all_cores.as_mut().expect(MEASURED))(phase),
        }
    }

    fn library(&mut self, phase: Phase) {
        let status = match phase {
            Phase::Align => self.align(),
            Phase::Fit(model) => self.fit(model),
            Phase::Predict(model) => self.predict(model),
        };
        assert_eq!(status, 0);
    }

    fn align(&mut self) -> u8 {
        let Input { rows, aligned, table } = &mut self.input;
        let records = Records {
            lines: self.lines.each_mut().map(Vec::as_mut_slice),
            used: &mut self.used,
            exact: self.exact.each_mut().map(Vec::as_mut_slice),
        };
        align(rows, self.files, table.len(), &mut self.workspace, records, aligned)
    }

    fn fit(&mut self, model: Model) -> u8 {
        self.input.fit(model, &mut self.workspace, &mut self.beta).status
    }

    fn predict(&mut self, model: Model) -> u8 {
        let (work, beta) = (&mut self.workspace, &mut self.beta);
        self.input.predict(model, work, beta, &mut self.predicted, &mut self.error).status
    }

    /// The design rows of the rows that train, as the Rust has them: how many columns are not zero, and how many
    /// pairs of columns a fit's sums visit of them, in the mean.
    pub fn visited(&self, model: Model) -> (f64, f64) {
        let Rust { db, features, .. } = &self.rust;
        let times = RetentionModel::fit(db, features).expect("it fits");
        let mobilities = MobilityModel::fit(db, features).expect("it fits");
        let design = |f: &&Feature| match model {
            Model::Retention => times.probe_embed(&db[f.peptide_idx]),
            Model::Mobility => mobilities.probe_embed(&db[f.peptide_idx], f.charge),
        };
        let trains = |f: &&Feature| f.label == 1 && f.spectrum_q <= 0.01;
        let training: Vec<&Feature> = features.iter().filter(trains).collect();
        let nonzero = |row: Vec<f64>| match row.iter().all(|x| x.is_finite()) {
            true => row.iter().filter(|x| **x != 0.0).count(),
            false => row.len(),
        };
        let (mut columns, mut pairs) = (0, 0);
        for k in training.iter().map(design).map(nonzero) {
            columns += k;
            pairs += k * (k + 1) / 2;
        }
        let rows = training.len() as f64;
        (columns as f64 / rows, pairs as f64 / rows)
    }
}
