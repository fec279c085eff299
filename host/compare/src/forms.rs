//! A row's record in a list of records, and the column walker.

use crate::cells::{same, Cell};
use oracle::gen::pools::any32;
use oracle::rng::Rng;
use sage::ml::matrix::Matrix;
use zorkamai::{raw, Alignment};

/// A list of any records, and lookups within and past its end.
pub fn records(r: &mut Rng) -> Result<usize, String> {
    let float = |r: &mut Rng| f32::from_bits(any32(r));
    let n = r.below(6);
    let record = |r: &mut Rng| Alignment {
        max_rt: float(r),
        slope: float(r),
        intercept: float(r),
        used: any32(r),
        max_rt_exact: r.one_in(2),
        slope_exact: r.one_in(2),
        intercept_exact: r.one_in(2),
    };
    let records: Vec<Alignment> = (0..n).map(|_| record(r)).collect();
    let files = [0, 1, n as u32, n as u32 + 1, r.below(n + 1) as u32, u32::MAX, 1 << 31];
    for file in files {
        let rt = float(r);
        let found = raw::record_of(&records, file);
        let time = raw::aligned_time(&records, file, rt);
        // As the Rust: the record at that place, and the time by it.
        let (status, record, aligned) = match records.get(file as usize) {
            Some(&a) => (0, a, (rt / a.max_rt) * a.slope + a.intercept),
            None => (4, Alignment::default(), 0.0),
        };
        same("status", found.status, status)?;
        same("max_rt", found.max_rt.pattern(), record.max_rt.written())?;
        same("slope", found.slope.pattern(), record.slope.written())?;
        same("intercept", found.intercept.pattern(), record.intercept.written())?;
        same("used", found.used, record.used)?;
        same("max_rt_exact", found.max_rt_exact, record.max_rt_exact)?;
        same("slope_exact", found.slope_exact, record.slope_exact)?;
        same("intercept_exact", found.intercept_exact, record.intercept_exact)?;
        same("status", time.status, status)?;
        same("aligned", time.aligned.pattern(), aligned.written())?;
    }
    Ok(2 * files.len())
}

/// A matrix of any cells, each column walked to its end, and steps outside.
pub fn column(r: &mut Rng) -> Result<usize, String> {
    let (rows, cols) = (r.range(1, 7), r.range(1, 7));
    let cells: Vec<f64> = (0..rows * cols).map(|_| f64::from_bits(r.bits())).collect();
    let matrix = Matrix::new(cells.clone(), rows, cols);
    let mut calls = 0;
    for col in 0..cols {
        let walked = zorkamai::Column::new(&cells, rows as u32, cols as u32, col as u32);
        let got: Vec<u64> = walked.map(|x| x.pattern()).collect();
        let want: Vec<u64> = matrix.col(col).map(|x| x.written()).collect();
        calls += got.len() + 1;
        same("column", got, want)?;
    }
    let none = raw::CellAnswer { found: false, value: 0.0, row: 0 };
    let far = r.pick(&[u32::MAX, 1 << 31, 1 << 16]);
    let (m, n) = (rows as u32, cols as u32);
    for (rows, cols, row, col) in
        [(m, n, m, 0), (m, n, 0, n), (m, n, far, 0), (m, n, 0, far), (far, far, far - 1, far - 1)]
    {
        same("step", raw::column_step(&cells, rows, cols, row, col), none)?;
    }
    // A slice that ends before the last cell.
    same("step", raw::column_step(&cells[1..], m, n, m - 1, n - 1), none)?;
    Ok(calls + 6)
}
