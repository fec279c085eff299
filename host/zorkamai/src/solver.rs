//! The ridge solver.

use crate::error::Call;
use crate::limits::{COLUMNS, ORDER};
use crate::{raw, Error};

/// A solved system.
#[derive(Clone, Debug, PartialEq)]
pub struct Solution {
    /// The first ridge, from 1E-8 in steps of ten, with which the system is solved.
    pub ridge: f64,
    /// The n rows of c cells.
    pub cells: Vec<f64>,
}

/// Solves left · x = right by Gauss-Jordan elimination, left n rows of n cells and right n rows of c.
///
/// ```
/// let solution = zorkamai::solve(&[2.0, 0.0, 0.0, 4.0], &[2.0, 8.0], 2, 1)?;
/// assert_eq!(solution.ridge, 1E-8);
/// assert!((solution.cells[1] - 2.0).abs() < 1E-6);
/// assert_eq!(zorkamai::solve(&[f64::NAN], &[1.0], 1, 1), Err(zorkamai::Error::NotSolved));
/// # Ok::<(), zorkamai::Error>(())
/// ```
pub fn solve(left: &[f64], right: &[f64], n: usize, c: usize) -> Result<Solution, Error> {
    // Past the limits the call is refused, whatever room it has.
    let fits = n <= ORDER && c <= COLUMNS;
    let (room, outputs) = if fits { (n * n + n * c, n * c) } else { (0, 0) };
    let mut workspace = vec![0.0; room];
    let mut cells = vec![0.0; outputs];
    let answer = raw::solve(left, right, n, c, &mut workspace, &mut cells);
    match answer.status {
        0 => Ok(Solution { ridge: answer.ridge, cells }),
        number => Err(handed_in(left.len(), right.len(), n, c).error(number)),
    }
}

/// What a call of the solver handed in: the lengths of both sides, the order and the right columns.
fn handed_in(left: usize, right: usize, n: usize, c: usize) -> Call<'static> {
    let columns = vec![
        ("the left side", left),
        ("n × n", n.saturating_mul(n)),
        ("the right side", right),
        ("n × c", n.saturating_mul(c)),
    ];
    let limits = vec![("order", n, 1, ORDER), ("right columns", c, 1, COLUMNS)];
    Call { columns, limits, ..Call::default() }
}
