//! Linear systems of orders 1 to 100 with 1 to 8 right columns.
//!
//! Well and ill conditioned, singular, normal equations, each of the nine ridges and none as the answer,
//! rows that tie, negative pivots, leftovers on the left, NaNs, infinities, zeros and subnormals.

use super::pools::{edge64, nan64};
use crate::rng::Rng;
use crate::solve::{ridges, System};
use crate::text::Output;

/// All systems: the number of them, then each.
pub fn cases() -> String {
    let mut out = Output::default();
    let systems = systems();
    out.number(systems.len());
    systems.iter().for_each(|system| system.write(&mut out));
    out.text
}

/// How many of the systems each ridge solves, and how many none.
pub fn tally() -> String {
    let systems = systems();
    let answers: Vec<Option<f64>> = systems.iter().map(|s| s.solve().map(|s| s.ridge)).collect();
    let count = |ridge: Option<f64>| answers.iter().filter(|&&a| a == ridge).count();
    let each = ridges().into_iter().map(|ridge| format!(" {ridge:e}: {}", count(Some(ridge))));
    format!(
        "{} systems, by ridge{}, none: {}",
        systems.len(),
        each.collect::<String>(),
        count(None)
    )
}

/// The families, in small orders first.
fn systems() -> Vec<System> {
    let mut rng = Rng::new(0x6A55);
    let r = &mut rng;
    let mut all = examples();
    repeat(&mut all, 40, |_| of_order_one(r));
    repeat(&mut all, 90, |i| one_ridge(r, i));
    repeat(&mut all, 70, |i| dominant(r, 1 + i % 14));
    repeat(&mut all, 70, |i| normal_equations(r, 2 + i % 9));
    repeat(&mut all, 60, |i| deficient(r, 3 + i % 8));
    repeat(&mut all, 24, |i| hilbert(r, 2 + i % 8));
    repeat(&mut all, 40, |i| singular(r, 2 + i % 6));
    repeat(&mut all, 50, |i| ties(r, 2 + i % 5));
    repeat(&mut all, 40, |i| negative_pivots(r, 2 + i % 5));
    repeat(&mut all, 50, |i| leftovers(r, 2 + i % 6));
    repeat(&mut all, 36, |i| row_zero(r, 3 + i % 5, i));
    repeat(&mut all, 24, |i| unsolved_cells(r, 2 + i % 4));
    repeat(&mut all, 10, |i| infinite_row(r, 3 + i % 4));
    repeat(&mut all, 80, |i| nasty(r, 1 + i % 7));
    repeat(&mut all, 30, |i| scaled(r, 2 + i % 6));
    for n in (15..=60).step_by(5) {
        all.push(dominant(r, n));
        all.push(normal_equations(r, n));
    }
    large(&mut all, r);
    all
}

/// A system of any family, of a random order.
pub fn any(r: &mut Rng) -> System {
    let (n, i) = (r.range(2, 14), r.below(90));
    match r.below(16) {
        0 => of_order_one(r),
        1 => one_ridge(r, i),
        2 => dominant(r, n),
        3 => normal_equations(r, n),
        4 => deficient(r, n + 1),
        5 => hilbert(r, n),
        6 => singular(r, n),
        7 => ties(r, n),
        8 => negative_pivots(r, n),
        9 => leftovers(r, n),
        10 => row_zero(r, n + 1, i),
        11 => unsolved_cells(r, n),
        12 => infinite_row(r, n + 1),
        13 => scaled(r, n),
        14 if i == 0 => {
            let n = r.range(60, 100);
            normal_equations(r, n)
        }
        _ => nasty(r, n - 1),
    }
}

fn repeat(all: &mut Vec<System>, n: usize, mut make: impl FnMut(usize) -> System) {
    all.extend((0..n).map(&mut make));
}

/// Orders 69 to 100 with one column, the models' own orders more than once.
fn large(all: &mut Vec<System>, r: &mut Rng) {
    for n in [69, 69, 78, 91, 100, 100] {
        all.push(one_column(normal_equations(r, n)));
    }
    for n in [69, 84, 100] {
        all.push(one_column(dominant(r, n)));
    }
    let mut failing = one_column(dominant(r, 70));
    failing.left[33 * 70 + 33] = -2.0;
    all.push(failing);
    let mut with_nan = one_column(dominant(r, 75));
    with_nan.left[74 * 75 + 2] = f64::NAN;
    all.push(with_nan);
    let mut late = one_column(normal_equations(r, 72));
    late.left[71 * 72 + 71] = -5E-4;
    all.push(late);
}

fn one_column(system: System) -> System {
    let right = system.right.chunks(system.c).map(|row| row[0]).collect();
    System { c: 1, right, ..system }
}

/// A system of order `n` from a left cell at each row and column, with random right sides.
fn build(r: &mut Rng, n: usize, mut cell: impl FnMut(&mut Rng, usize, usize) -> f64) -> System {
    let left = (0..n * n).map(|place| cell(r, place / n, place % n)).collect();
    let c = r.range(1, 8);
    let right = (0..n * c).map(|_| r.signed() * 10.0).collect();
    System { n, c, left, right }
}

/// The systems that document 01 names, and small relatives.
fn examples() -> Vec<System> {
    let system = |n: usize, left: &[f64], right: &[f64]| System {
        n,
        c: right.len() / n,
        left: left.to_vec(),
        right: right.to_vec(),
    };
    vec![
        system(1, &[-1E-8], &[5.0]),
        system(2, &[-1.0, 0.0, 0.0, 1.0], &[3.0, 4.0]),
        system(1, &[f64::NAN], &[1.0]),
        system(2, &[1.0, 0.0, 0.0, -1.0], &[3.0, 4.0]),
        system(2, &[0.0, 1.0, 1.0, 0.0], &[3.0, 4.0]),
        system(2, &[-1E-8, 0.0, 0.0, -1E-8], &[3.0, -0.0]),
        system(2, &[1.0, -5.0, 0.0, 1.0], &[1.0, 1.0]),
        system(3, &[2.0, 1.0, 1.0, 2.0, 1.0, 1.0, 2.0, 1.0, 1.0], &[1.0, 2.0, 3.0]),
    ]
}

fn of_order_one(r: &mut Rng) -> System {
    let mut system = build(r, 1, |r, _, _| match r.below(3) {
        0 => r.signed(),
        1 => -r.pick(&ridges()),
        _ => f64::from_bits(edge64(r)),
    });
    system.right.iter_mut().for_each(|x| {
        if r.one_in(3) {
            *x = f64::from_bits(edge64(r));
        }
    });
    system
}

/// A diagonal that the ridges before the `k`-th leave with a negative cell; the tenth kind no ridge lifts.
fn one_ridge(r: &mut Rng, i: usize) -> System {
    let low = match ridges().get(i % 10) {
        Some(ridge) => -ridge * (0.3 + 0.4 * r.unit()),
        None => -1.5,
    };
    let n = 2 + i % 6;
    let at = r.below(n);
    build(r, n, |r, row, col| match (row == col, row == at) {
        (true, true) => low,
        (true, false) => 1.0 + r.unit(),
        _ => 0.0,
    })
}

/// A diagonal larger than the rest of its row.
fn dominant(r: &mut Rng, n: usize) -> System {
    build(r, n, |r, row, col| match row == col {
        true => n as f64 + r.unit(),
        false => r.signed(),
    })
}

/// X^T X and X^T y of random small counts, sometimes of too few rows or with columns that depend on others.
fn normal_equations(r: &mut Rng, n: usize) -> System {
    let rows = r.range(1, 2 * n);
    let plain = r.one_in(3);
    let mut x: Vec<f64> =
        (0..rows * n).map(|_| if plain { r.signed() } else { r.below(4) as f64 }).collect();
    if r.one_in(3) {
        for row in x.chunks_mut(n) {
            row[n - 1] = row[..n - 1].iter().sum();
        }
    }
    let c = r.range(1, 3);
    let y: Vec<f64> = (0..rows * c).map(|_| r.unit()).collect();
    let product = |a: &[f64], wa: usize, b: &[f64], wb: usize, i: usize, j: usize| {
        (0..rows).fold(0.0, |sum, k| sum + a[k * wa + i] * b[k * wb + j])
    };
    let left = (0..n * n).map(|p| product(&x, n, &x, n, p / n, p % n)).collect();
    let right = (0..n * c).map(|p| product(&x, n, &y, c, p / c, p % c)).collect();
    System { n, c, left, right }
}

/// Normal equations of large numbers and of too low a rank: rounding leaves what a small ridge can't lift.
fn deficient(r: &mut Rng, n: usize) -> System {
    let scale = r.pick(&[1E2, 1E3, 3E3, 1E4, 1E5]);
    let (rows, rank) = (n + 2, r.range(1, n - 1));
    let basis: Vec<f64> = (0..rank * n).map(|_| r.signed()).collect();
    let mut x = vec![0.0; rows * n];
    for row in x.chunks_mut(n) {
        for line in basis.chunks(n) {
            let factor = scale * r.signed();
            row.iter_mut().zip(line).for_each(|(x, b)| *x += factor * b);
        }
    }
    build(r, n, |_, i, j| (0..rows).fold(0.0, |sum, k| sum + x[k * n + i] * x[k * n + j]))
}

/// Hilbert's matrix, scaled: the worse the larger the order.
fn hilbert(r: &mut Rng, n: usize) -> System {
    let scale = r.pick(&[1.0, 1E-6, 1E6, -1.0]);
    build(r, n, |_, row, col| scale / (1 + row + col) as f64)
}

/// Equal rows, zero rows and columns, rank one, all zero.
fn singular(r: &mut Rng, n: usize) -> System {
    let kind = r.below(5);
    let (a, b) = (r.below(n), r.below(n));
    let mut system = build(r, n, |r, row, col| match kind {
        0 => r.pick(&[0.0, -0.0]),
        1 => ((1 + row) * (1 + col)) as f64,
        2 if row == a || col == b => 0.0,
        3 if col == b => 0.0,
        _ => r.range(0, 9) as f64 - 3.0,
    });
    if kind == 4 {
        for col in 0..n {
            system.left[a * n + col] = system.left[b * n + col];
        }
    }
    system
}

/// Cells out of a few values, so that the search meets equals, both zeros among them.
fn ties(r: &mut Rng, n: usize) -> System {
    let values = r.pick(&[
        [0.0, 1.0, 2.0, 1.0],
        [1.0, 1.0, 1.0, 2.0],
        [-0.0, 0.0, 1.0, -1.0],
        [-1.0, -1.0, -2.0, 0.0],
    ]);
    build(r, n, |r, row, col| {
        r.pick(&values) + if row == col && values[0] != 0.0 { 2.0 } else { 0.0 }
    })
}

/// Negative diagonals and triangles, where largest by value is not largest by size.
fn negative_pivots(r: &mut Rng, n: usize) -> System {
    let kind = r.below(4);
    build(r, n, |r, row, col| match kind {
        0 if row == col => -1.0 - r.unit(),
        0 => -0.1 * r.unit(),
        1 if row == col => 1.0 + r.unit(),
        1 => -3.0 * r.unit(),
        2 if row <= col => r.signed(),
        2 => 0.0,
        _ => -(r.range(0, 5) as f64),
    })
}

/// A column whose cells from some row down are NaN or below every finite number: row 0 is chosen there.
fn leftovers(r: &mut Rng, n: usize) -> System {
    let mut system = dominant(r, n);
    let column = r.range(1, n - 1);
    let low = r.pick(&[f64::NAN, f64::NEG_INFINITY, -f64::NAN]);
    for row in r.below(n).min(column)..n {
        system.left[row * n + column] = low;
    }
    if r.one_in(2) {
        system.left[column] = r.pick(&[1.0, -1.0, 0.0, f64::INFINITY]);
    }
    system
}

/// Row 0 is chosen in the last column although the search starts at row 1, and the system is solved: the
/// ridge makes every diagonal cell 0.0, and the last column is NaN or below every finite number from row 1 down.
fn row_zero(r: &mut Rng, n: usize, i: usize) -> System {
    let ridge = ridges()[i % 9];
    let low = r.pick(&[f64::NEG_INFINITY, f64::NAN]);
    build(r, n, |r, row, col| match (row, col) {
        (0, 1) => 1.0 + r.unit(),
        (0, col) if 1 < col => -0.1 - r.unit(),
        (_, col) if col + 1 == n => low,
        (row, col) if row == col => -ridge,
        _ => 0.0,
    })
}

/// What is left above a zero row, about the largest that counts as solved, 1E-8.
fn unsolved_cells(r: &mut Rng, n: usize) -> System {
    let border = 1E-8f64.to_bits();
    let left =
        r.pick(&[border - 1, border, border + 1, border / 2, (-1f64).to_bits(), 5E-9f64.to_bits()]);
    build(r, n, |_, row, col| match (row == col, col + 1 == n) {
        (true, true) => -1E-8,
        (true, false) => 1.0 - 1E-8,
        (false, true) => f64::from_bits(left),
        _ => 0.0,
    })
}

/// An infinite cell that becomes a NaN at the head of row 1, and goes from there to the row above.
fn infinite_row(r: &mut Rng, n: usize) -> System {
    build(r, n, |r, row, col| match (row, col + 1 == n) {
        (0, true) => r.signed(),
        (1, true) => f64::INFINITY,
        _ if row == col => {
            if row == 0 {
                1.0
            } else {
                -1E-8
            }
        }
        _ => 0.0,
    })
}

/// A dominant or a random system with some cells at the edges of the format.
fn nasty(r: &mut Rng, n: usize) -> System {
    let mut system = if r.one_in(2) { dominant(r, n) } else { build(r, n, |r, _, _| r.signed()) };
    for _ in 0..r.range(1, 3) {
        let bits = if r.one_in(4) { nan64(r) | r.bits() << 63 } else { edge64(r) };
        let cells = if r.one_in(3) { &mut system.right } else { &mut system.left };
        let place = r.below(cells.len());
        cells[place] = f64::from_bits(bits);
    }
    system
}

/// Rows of very different sizes, up to overflow and down to subnormal numbers.
fn scaled(r: &mut Rng, n: usize) -> System {
    let mut system = dominant(r, n);
    for row in 0..n {
        let scale = r.pick(&[1E300, 1E-300, 1E-308, 1E150, 1.0, 1E-9]);
        system.left[row * n..][..n].iter_mut().for_each(|x| *x *= scale);
    }
    system
}
