//! Records for the leaves mass, matrix and feature.

use super::pools::any32;
use crate::rng::Rng;
use crate::text::{bits_i32, Output};

/// Every byte's column, and every column's letter.
pub fn mass() -> String {
    let mut out = Output::default();
    (0..256).for_each(|byte| out.record(0x01, byte, 0, 0));
    (0..22).for_each(|column| out.record(0x02, column, 0, 0));
    out.text
}

/// Cells in and outside of matrices of up to 32 rows and columns.
pub fn matrix() -> String {
    let mut out = Output::default();
    let mut rng = Rng::new(0x3A7);
    for i in 0..2_200u64 {
        let (rows, cols) = (rng.range(0, 32), rng.range(0, 32));
        let (mut row, mut col) = (rng.range(0, rows), rng.range(0, cols));
        match i % 11 {
            0 => row = rows.saturating_sub(1),
            1 => col = cols.saturating_sub(1),
            2 => (row, col) = (rows.saturating_sub(1), cols.saturating_sub(1)),
            3 => (row, col) = (rng.range(0, 40), rng.range(0, 40)),
            4 => row = u32::MAX as usize - rng.below(2),
            5 => col = u32::MAX as usize - rng.below(2),
            _ => {}
        }
        out.record(0x01, row as u64, col as u64, (rows as u64) << 32 | cols as u64);
    }
    out.text
}

/// Labels and q about the border of training, and any others.
pub fn feature() -> String {
    let mut out = Output::default();
    let mut rng = Rng::new(0xFEA7);
    let labels = [1, 1, 1, 1, -1, 0, 2, i32::MIN, i32::MAX, 257, 65537, -2];
    for i in 0..2_200u32 {
        let label = if i % 7 == 0 { rng.bits() as i32 } else { rng.pick(&labels) };
        let q = match i % 4 {
            0 => 0x3C23_D70A - 5 + rng.below(11) as u32,
            1 => rng.pick(&[
                0,
                0x8000_0000,
                0x3C23_D70A,
                0x3C23_D70B,
                0xBC23_D70B,
                0x7F80_0000,
                0xFF80_0000,
                0x7FC0_0000,
                0xFFC0_0000,
                0x7F80_0001,
            ]),
            2 => (rng.unit() as f32 * 0.02).to_bits(),
            _ => any32(&mut rng),
        };
        out.record(0x01, bits_i32(label), q as u64, 0);
    }
    out.text
}
