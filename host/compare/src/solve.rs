//! Systems through the solver, and damaged calls of it.

use crate::cells::{same, Output};
use oracle::rng::Rng;
use oracle::solve::System;
use zorkamai::raw;

/// A system of any family, solved, and each way to damage the call.
pub fn case(r: &mut Rng) -> Result<usize, String> {
    let system = oracle::gen::gauss::any(r);
    let mut out = Outputs::new(r, &system);
    solved(&system, &mut out)?;
    Ok(1 + damaged(r, &system, &mut out)?)
}

struct Outputs {
    workspace: Output<f64>,
    solution: Output<f64>,
}

impl Outputs {
    fn new(r: &mut Rng, s: &System) -> Outputs {
        Outputs {
            workspace: Output::new(r, "workspace", s.n * s.n + s.n * s.c),
            solution: Output::new(r, "solution", s.n * s.c),
        }
    }

    fn call(&mut self, left: &[f64], right: &[f64], n: usize, c: usize) -> raw::Answer {
        raw::solve(left, right, n, c, &mut self.workspace.now, &mut self.solution.now)
    }
}

fn solved(s: &System, out: &mut Outputs) -> Result<(), String> {
    let answer = out.call(&s.left, &s.right, s.n, s.c);
    out.workspace.zeroed()?;
    match s.solve() {
        Some(want) => {
            same("status", answer.status, 0)?;
            same("ridge", answer.ridge.to_bits(), want.ridge.to_bits())?;
            same("r2", answer.r2.to_bits(), 0)?;
            same("n and inexact", (answer.n, answer.inexact), (0, 0))?;
            out.solution.holds(&want.cells)
        }
        None => {
            same("answer", answer, only(9))?;
            out.solution.unchanged()
        }
    }
}

/// The answer that tells its number alone.
pub fn only(status: u8) -> raw::Answer {
    raw::Answer { status, ridge: 0.0, r2: 0.0, n: 0, inexact: 0 }
}

/// The left and the right side, the order, the right columns, and the number that refuses them.
type Call<'a> = (&'a [f64], &'a [f64], usize, usize, u8);

/// The call is refused with its number, and changes nothing.
fn refused(out: &mut Outputs, (left, right, n, c, status): Call) -> Result<(), String> {
    same("answer", out.call(left, right, n, c), only(status))?;
    out.workspace.unchanged()?;
    out.solution.unchanged()
}

/// Sides one short or one long, numbers past the limits, and slices one short: refused, nothing changed.
fn damaged(r: &mut Rng, s: &System, out: &mut Outputs) -> Result<usize, String> {
    out.workspace.reset();
    out.solution.reset();
    let longer = |cells: &[f64]| [cells, &[1.0]].concat();
    let (left, right) = (longer(&s.left), longer(&s.right));
    let huge = r.pick(&[usize::MAX, 1 << 32, 101, 1 << 33]);
    let calls: [Call; 10] = [
        (&s.left[1..], &s.right, s.n, s.c, 1),
        (&left, &s.right, s.n, s.c, 1),
        (&s.left, &s.right[1..], s.n, s.c, 1),
        (&s.left, &right, s.n, s.c, 1),
        (&s.left, &s.right, s.n + 1, s.c, 1),
        (&s.left, &s.right, s.n, s.c + 1, 1),
        (&s.left, &s.right, huge, s.c, 1),
        (&[], &[], 0, s.c, 2),
        (&s.left, &[], s.n, 0, 2),
        (&[], &s.right[..0], 0, huge, 2),
    ];
    for call in calls {
        refused(out, call)?;
    }
    let mut count = calls.len() + 3;
    let wide = vec![0.5; s.n * 9];
    refused(out, (&s.left, &wide, s.n, 9, 2))?;
    let whole = out.workspace.cut();
    refused(out, (&s.left, &s.right, s.n, s.c, 3))?;
    out.workspace = whole;
    let whole = out.solution.cut();
    refused(out, (&s.left, &s.right, s.n, s.c, 3))?;
    out.solution = whole;
    if r.one_in(50) {
        let order = vec![0.5; 101 * 101];
        refused(out, (&order, &order[..101], 101, 1, 2))?;
        count += 1;
    }
    Ok(count)
}
