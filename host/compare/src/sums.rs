//! The step that adds a sample with its zeros skipped, compiled, on any rows: against the step of the Rust's regression
//! after every row, and on cells of any content; and whole fits whose logs are any numbers.

use crate::calls::{Input, Model};
use crate::cells::{same, Cell, Output};
use crate::models::{holds_beta, is_fit};
use oracle::gen::pools::any64;
use oracle::rng::Rng;
use oracle::run::{fit_with_logs, run};
use sage::ml::regression::ProbeSums;
use steps::Equations;
use zorkamai::retention;

/// A system of any order: after every row the stored cells of both steps are the Rust's, and the number of visited
/// pairs is that of a plain count. Then a row on cells of any content.
pub fn case(r: &mut Rng) -> Result<usize, String> {
    let d = if r.one_in(8) { r.pick(&[69, 100]) } else { r.below(13) };
    let rows = r.range(1, 9);
    let mut rust = ProbeSums::zero(d);
    let [mut sparse, mut dense] = [0, 1].map(|_| Equations::new(d, || 0.0));
    for _ in 0..rows {
        let ext = any_row(r, d);
        rust.add_row(&ext[..d], ext[d]);
        dense.add_row(&ext);
        same("visited", sparse.add_row_sparse(&ext), visited(&ext))?;
        let want = triangle(&rust, d);
        alike("every pair", dense.stored(), &want)?;
        alike("zeros skipped", sparse.stored(), &want)?;
    }
    untouched(r, d)?;
    Ok(2 * rows + 1)
}

/// A row of `d` columns and a target: mostly zeros of both signs, numbers of plain size, numbers whose products
/// underflow or overflow, and in one row of four any floats among them.
fn any_row(r: &mut Rng, d: usize) -> Vec<f64> {
    let zeros = r.pick(&[0, 2, 6, 9]);
    let wild = r.one_in(4);
    let cell = |r: &mut Rng| match r.below(12) {
        _ if r.below(10) < zeros => r.pick(&[0.0, -0.0]),
        0 if wild => f64::from_bits(any64(r)),
        1 if wild => r.pick(&[f64::NAN, f64::INFINITY, f64::NEG_INFINITY]),
        2 | 3 => r.signed() * r.pick(&[1E-160, 1E-170, 1E-308, 5E-324]),
        4 => r.signed() * r.pick(&[1E150, 1E155, 1E200, 1.7E308]),
        5 => r.pick(&[1.0, -1.0, 2.0, 0.5]),
        _ => r.signed() * 10.0,
    };
    (0..d + 1).map(|_| cell(r)).collect()
}

/// The Rust's matrix from the diagonal on, by rows, each with its cell of the right side.
fn triangle(rust: &ProbeSums, d: usize) -> Vec<f64> {
    let (cov, b) = rust.equations();
    (0..d).flat_map(|j| cov[j * d + j..(j + 1) * d].iter().copied().chain([b[j]])).collect()
}

/// The pairs of columns that a row visits, counted one by one.
fn visited(ext: &[f64]) -> u32 {
    let finite = ext.iter().all(|x| x.is_finite());
    let row = &ext[..ext.len() - 1];
    let pair = |x: &f64, y: &f64| !finite || *x != 0.0 && *y != 0.0;
    let from = |j: usize| row[j..].iter().filter(|y| pair(&row[j], y)).count();
    (0..row.len()).map(from).sum::<usize>() as u32
}

/// The cells have the patterns wanted, any NaN for a NaN.
fn alike(what: &str, cells: &[f64], want: &[f64]) -> Result<(), String> {
    let patterns = |cells: &[f64]| cells.iter().map(|x| x.written()).collect::<Vec<_>>();
    same(what, patterns(cells), patterns(want))
}

/// On cells of any content the step changes those of pairs without a zero alone, and of the right side those of nonzero
/// columns and a nonzero target; of a row that is not finite all; and no cell of the full rows.
fn untouched(r: &mut Rng, d: usize) -> Result<(), String> {
    let mut sums = Equations::new(d, || f64::from_bits(any64(r)));
    let before = sums.workspace.clone();
    let ext = any_row(r, d);
    let finite = ext.iter().all(|x| x.is_finite());
    let mut want = before.clone();
    let mut left: Vec<usize> = (0..d * (d + 1)).collect();
    let mut at = left.len();
    for j in 0..d {
        for y in &ext[j..] {
            match !finite || ext[j] != 0.0 && *y != 0.0 {
                true => want[at] += ext[j] * y,
                false => left.push(at),
            }
            at += 1;
        }
    }
    sums.add_row_sparse(&ext);
    alike("a row on any cells", &sums.workspace, &want)?;
    let patterns = |cells: &[f64]| left.iter().map(|&i| cells[i].to_bits()).collect::<Vec<_>>();
    same("cells left alone", patterns(&sums.workspace), patterns(&before))
}

/// A batch of any family whose logs are any numbers: the retention fit is that of the Rust's regression.
pub fn logs(r: &mut Rng) -> Result<usize, String> {
    let batch = oracle::gen::run::any(r);
    let aligned = run(&batch).aligned;
    let mut input = Input::new(&batch, aligned.times());
    let plain = r.one_in(2);
    let log = |r: &mut Rng| match plain {
        true => r.signed() * r.pick(&[1.0, 1E-170, 1E-320, 1E100, 1E160]),
        false => f64::from_bits(any64(r)),
    };
    input.table.logs.iter_mut().for_each(|x| *x = if r.one_in(3) { *x } else { log(r) });
    let want = fit_with_logs(&batch.peptides, &input.table.logs, &aligned.features);
    let mut work = Output::new(r, "workspace", retention::WORKSPACE);
    let mut beta = Output::new(r, "beta", retention::COLUMNS);
    let answer = input.fit(Model::Retention, &mut work.now, &mut beta.now);
    is_fit("fit with any logs", answer, &want, 0)?;
    work.zeroed()?;
    holds_beta(&beta, &want)?;
    Ok(1)
}
