//! Linear systems through `Gauss::solve`, with the ridge that solved.

use crate::text::{bits64, Output, Tokens};
use sage::ml::gauss::Gauss;
use sage::ml::matrix::Matrix;

/// A square left side of order `n` and `c` right columns, cells row by row.
#[derive(Clone, Debug)]
pub struct System {
    pub n: usize,
    pub c: usize,
    pub left: Vec<f64>,
    pub right: Vec<f64>,
}

/// The ridge that solved and the solution's cells, row by row.
#[derive(Clone, Debug)]
pub struct Solved {
    pub ridge: f64,
    pub cells: Vec<f64>,
}

/// The ridges in the order in which `Gauss::solve` tries them.
pub fn ridges() -> Vec<f64> {
    let mut all = vec![];
    let mut eps = 1E-8;
    while eps <= 1.0 {
        all.push(eps);
        eps *= 10.0;
    }
    all
}

impl System {
    fn left(&self) -> Matrix {
        Matrix::new(self.left.clone(), self.n, self.n)
    }

    fn right(&self) -> Matrix {
        Matrix::new(self.right.clone(), self.n, self.c)
    }

    /// The first ridge that `Gauss::solve_inner` solves with, checked against `Gauss::solve`.
    pub fn solve(&self) -> Option<Solved> {
        let first = ridges().into_iter().find_map(|ridge| {
            let cells = Gauss::solve_inner(self.left(), self.right(), ridge)?.take();
            Some(Solved { ridge, cells })
        });
        sage::take_failed_ridges();
        let whole = Gauss::solve(self.left(), self.right()).map(Matrix::take);
        let ridge = ridges().get(sage::take_failed_ridges()).copied();
        assert_eq!(first.as_ref().map(|s| patterns(&s.cells)), whole.as_deref().map(patterns));
        assert_eq!(first.as_ref().map(|s| s.ridge), ridge);
        first
    }

    /// Reads n, c, the left cells and the right cells.
    pub fn read(input: &mut Tokens) -> Result<System, String> {
        let (n, c) = (input.at_most(100)?, input.at_most(8)?);
        let left = input.column(n * n, Tokens::f64)?;
        let right = input.column(n * c, Tokens::f64)?;
        match n == 0 || c == 0 {
            true => Err("order and columns start at 1".to_string()),
            false => Ok(System { n, c, left, right }),
        }
    }

    /// Writes what `read` reads.
    pub fn write(&self, out: &mut Output) {
        out.number(self.n);
        out.number(self.c);
        // A case keeps its NaN's sign and payload; only answers have the one NaN.
        self.left.iter().chain(&self.right).for_each(|x| out.bits(x.to_bits()));
    }
}

/// The cells' patterns, NaNs alike.
fn patterns(cells: &[f64]) -> Vec<u64> {
    cells.iter().map(|&x| bits64(x)).collect()
}

/// Answers one system: 9, or 0, the ridge and the solution.
pub fn answer(input: &mut Tokens, out: &mut Output) -> Result<(), String> {
    match System::read(input)?.solve() {
        None => out.number(9),
        Some(solved) => {
            out.number(0);
            out.f64(solved.ridge);
            solved.cells.iter().for_each(|&x| out.f64(x));
        }
    }
    Ok(())
}
