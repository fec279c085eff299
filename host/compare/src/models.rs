//! Both models through `fit` and `predict`, and damaged calls of them.

use crate::calls::{Input, Model};
use crate::cells::{same, Cell, Output};
use crate::solve::only;
use oracle::rng::Rng;
use oracle::run::{run, Fit, Run};
use sage::scoring::Feature;
use zorkamai::{mobility, raw, retention};

/// A batch of any family: both models fitted on the Rust's aligned times, and each way to damage a call.
pub fn case(r: &mut Rng) -> Result<usize, String> {
    let batch = oracle::gen::run::any(r);
    let want = run(&batch);
    let input = Input::new(&batch, want.aligned.times());
    let mut calls = 0;
    for model in [Model::Retention, Model::Mobility] {
        let mut out = Outputs::new(r, model, input.rows.len());
        calls += accepted(model, &input, &want, &mut out)?;
        calls += damaged(r, model, &input, &mut out)?;
    }
    Ok(calls)
}

impl Model {
    /// The cells of its work room and of its coefficients.
    fn room(self) -> (usize, usize) {
        match self {
            Model::Retention => (retention::WORKSPACE, retention::COLUMNS),
            Model::Mobility => (mobility::WORKSPACE, mobility::COLUMNS),
        }
    }

    /// The Rust's fit, and how many of its predictions are not exact.
    fn want(self, run: &Run) -> (&Fit, usize) {
        match self {
            Model::Retention => (&run.retention, run.retention_inexact),
            Model::Mobility => (&run.mobility, run.mobility_inexact),
        }
    }

    /// The prediction and the error that the Rust wrote.
    fn written(self, f: &Feature) -> (f32, f32) {
        match self {
            Model::Retention => (f.predicted_rt, f.delta_rt_model),
            Model::Mobility => (f.predicted_ims, f.delta_ims_model),
        }
    }

    /// A cut of each column that the model takes, and of the logs where it takes them.
    fn cuts(self) -> [Cut; 5] {
        let [one, other]: [Cut; 2] = match self {
            Model::Retention => [|i| i.aligned.pop().is_some(), |i| i.table.logs.pop().is_some()],
            Model::Mobility => {
                [|i| i.rows.charge.pop().is_some(), |i| i.rows.mobility.pop().is_some()]
            }
        };
        [
            |i| i.rows.peptide.pop().is_some(),
            |i| i.rows.label.pop().is_some(),
            |i| i.rows.q.pop().is_some(),
            one,
            other,
        ]
    }
}

/// What a call writes.
pub struct Outputs {
    doubles: [Output<f64>; 2],
    floats: [Output<f32>; 2],
}

impl Outputs {
    pub fn new(r: &mut Rng, model: Model, rows: usize) -> Outputs {
        let (cells, columns) = model.room();
        Outputs {
            doubles: [Output::new(r, "workspace", cells), Output::new(r, "beta", columns)],
            floats: [Output::new(r, "predicted", rows), Output::new(r, "error", rows)],
        }
    }

    fn fit(&mut self, model: Model, input: &Input) -> raw::Answer {
        let [work, beta] = &mut self.doubles;
        input.fit(model, &mut work.now, &mut beta.now)
    }

    fn predict(&mut self, model: Model, input: &Input) -> raw::Answer {
        let ([work, beta], [x, e]) = (&mut self.doubles, &mut self.floats);
        input.predict(model, &mut work.now, &mut beta.now, &mut x.now, &mut e.now)
    }

    /// The answer, the work room and the coefficients are those of the Rust's fit.
    fn holds_fit(&self, answer: raw::Answer, want: &Fit, inexact: usize) -> Result<(), String> {
        is_fit("fit", answer, want, inexact)?;
        self.doubles[0].zeroed()?;
        holds_beta(&self.doubles[1], want)
    }

    fn reset(&mut self) {
        self.doubles.iter_mut().for_each(Output::reset);
        self.floats.iter_mut().for_each(Output::reset);
    }

    fn unchanged(&self) -> Result<(), String> {
        self.doubles.iter().try_for_each(Output::unchanged)?;
        self.floats.iter().try_for_each(Output::unchanged)
    }
}

/// Both calls are accepted and give what the Rust gives.
pub fn accepted(
    model: Model,
    input: &Input,
    want: &Run,
    out: &mut Outputs,
) -> Result<usize, String> {
    let ((fit, inexact), features) = (model.want(want), &want.aligned.features);
    let answer = out.fit(model, input);
    out.holds_fit(answer, fit, 0)?;
    out.floats.iter().try_for_each(Output::unchanged)?;
    out.reset();
    let answer = out.predict(model, input);
    out.holds_fit(answer, fit, inexact)?;
    holds_column(&out.floats[0], fit, features, |f| model.written(f).0)?;
    holds_column(&out.floats[1], fit, features, |f| model.written(f).1)?;
    Ok(2)
}

/// The answer is that of the Rust's fit, with so many predictions that are not exact.
pub fn is_fit(what: &str, answer: raw::Answer, want: &Fit, inexact: usize) -> Result<(), String> {
    let got = (answer.status, answer.ridge.pattern(), answer.r2.pattern(), answer.n);
    let wanted = match want {
        Fit::Solved { ridge, r2, n, .. } => (0, ridge.pattern(), r2.written(), *n as u32),
        Fit::NoTrainingRows => (8, 0, 0, 0),
        Fit::NotSolved => (9, 0, 0, 0),
    };
    same(what, got, wanted)?;
    same(&format!("{what}'s inexact"), answer.inexact as usize, inexact)
}

/// The coefficients are those of the Rust's fit, or what they were.
pub fn holds_beta(beta: &Output<f64>, want: &Fit) -> Result<(), String> {
    match want {
        Fit::Solved { beta: cells, .. } => beta.holds(cells),
        _ => beta.unchanged(),
    }
}

/// The column is what the Rust wrote, or what it was where the model does not fit.
pub fn holds_column(
    column: &Output<f32>,
    fit: &Fit,
    features: &[Feature],
    cell: impl Fn(&Feature) -> f32,
) -> Result<(), String> {
    match fit {
        Fit::Solved { .. } => column.holds(&features.iter().map(cell).collect::<Vec<_>>()),
        _ => column.unchanged(),
    }
}

/// Each column one short, slices one short, broken offsets, a lower-case letter, a peptide out of range:
/// refused, and nothing changed.
fn damaged(r: &mut Rng, model: Model, input: &Input, out: &mut Outputs) -> Result<usize, String> {
    out.reset();
    let mut calls = 0;
    let mut refuse = |out: &mut Outputs, input: &Input, status: u8| {
        calls += 2;
        for answer in [out.fit(model, input), out.predict(model, input)] {
            same(&format!("{model:?}'s refusal"), answer, only(status))?;
        }
        out.unchanged()
    };
    for damaged in shorter(input, &model.cuts()) {
        refuse(out, &damaged, 1)?;
    }
    for (damaged, status) in broken(r, input) {
        refuse(out, &damaged, status)?;
    }
    for i in 0..2 {
        let whole = out.doubles[i].cut();
        refuse(out, input, 3)?;
        out.doubles[i] = whole;
    }
    for i in 0..2 {
        if out.floats[i].needed() > 0 {
            let whole = out.floats[i].cut();
            calls += 1;
            same("refusal", out.predict(model, input), only(3))?;
            out.unchanged()?;
            out.floats[i] = whole;
        }
    }
    Ok(calls)
}

/// Cuts a column by one cell, if it has one.
pub type Cut = fn(&mut Input) -> bool;

/// The input after each of these cuts.
pub fn shorter(input: &Input, cuts: &[Cut]) -> Vec<Input> {
    let cut = |change: &Cut| {
        let mut damaged = input.clone();
        change(&mut damaged).then_some(damaged)
    };
    cuts.iter().filter_map(cut).collect()
}

/// The input with its table or a peptide's number broken, and the number of each refusal.
pub fn broken(r: &mut Rng, input: &Input) -> Vec<(Input, u8)> {
    let (n, letters) = (input.table.len(), input.table.letters.len());
    let mut all = vec![];
    let mut with = |status: u8, change: &dyn Fn(&mut Input)| {
        let mut damaged = input.clone();
        change(&mut damaged);
        all.push((damaged, status));
    };
    let at = r.below(n + 1);
    with(7, &|i| _ = i.table.offsets.pop());
    with(7, &|i| i.table.offsets.push(letters as u32));
    with(7, &|i| i.table.offsets[0] = 1);
    with(7, &|i| i.table.offsets[n] += 1);
    with(7, &|i| i.table.offsets[at] = u32::MAX);
    with(7, &|i| i.table.letters.push(b'A'));
    if letters > 0 {
        let (at, letter) = (r.below(letters), r.pick(b"a@[z\0\xC1 "));
        with(6, &|i| i.table.letters[at] = letter);
    }
    if !input.rows.is_empty() {
        let (at, past) = (r.below(input.rows.len()), r.pick(&[0, 1, 1 << 20, 1 << 31]));
        with(5, &|i| i.rows.peptide[at] = n as u32 + past);
    }
    all
}
