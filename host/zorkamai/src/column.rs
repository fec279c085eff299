//! A walker down a column of a matrix.

use crate::raw;

/// Walks down a column of a matrix of rows × cols cells that lies in a slice, row by row. It ends where the matrix
/// or the slice has no such cell.
///
/// ```
/// let cells = [1.0, 2.0, 3.0, 4.0, 5.0, 6.0];
/// assert_eq!(zorkamai::Column::new(&cells, 3, 2, 1).collect::<Vec<_>>(), [2.0, 4.0, 6.0]);
/// ```
#[derive(Clone, Debug)]
pub struct Column<'a> {
    cells: &'a [f64],
    rows: u32,
    cols: u32,
    row: u32,
    col: u32,
}

impl<'a> Column<'a> {
    /// The walker at the top of a column.
    pub fn new(cells: &'a [f64], rows: u32, cols: u32, col: u32) -> Column<'a> {
        Column { cells, rows, cols, row: 0, col }
    }
}

impl Iterator for Column<'_> {
    type Item = f64;

    fn next(&mut self) -> Option<f64> {
        let step = raw::column_step(self.cells, self.rows, self.cols, self.row, self.col);
        if !step.found {
            return None;
        }
        self.row = step.row;
        Some(step.value)
    }
}
