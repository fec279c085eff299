//! Alignments of many files, about the numbers at which something changes: the library takes larger arrays for more
//! than 256 files, and 4,096 is the limit.

use crate::align::compared;
use oracle::gen::alignment::{nasty_q, nasty_time, plain, Rows};
use oracle::rng::Rng;

/// A batch of many files.
pub fn case(r: &mut Rng) -> Result<usize, String> {
    let batch = batch(r);
    compared(r, &batch)
}

/// How many files there are.
fn files(r: &mut Rng) -> usize {
    match r.below(8) {
        0 => r.range(1, 20),
        1..=2 => r.range(250, 262),
        3 => r.pick(&[256, 257]),
        4 => r.range(1_020, 1_030),
        5 => r.range(263, 4_089),
        6 => r.range(4_090, 4_096),
        _ => 4_096,
    }
}

/// Few peptides. Rows may be crowded in the last files, which would else have a row or none, and may have nasty times.
fn batch(r: &mut Rng) -> Rows {
    let files = files(r);
    let (peptides, rows) = (r.range(1, 12), r.range(0, 600));
    let mut batch = plain(r, files, peptides, rows);
    let (crowded, nasty) = (r.one_in(2), r.one_in(2));
    for row in &mut batch.rows {
        if crowded && !r.one_in(3) {
            row.file = files - 1 - r.below(files.min(9));
        }
        if nasty && r.one_in(6) {
            row.rt = nasty_time(r);
        }
        if nasty && r.one_in(12) {
            row.q = nasty_q(r);
        }
    }
    batch
}
