//! Leaf functions: a record is an operation and three arguments, the answer one number.

use crate::alignment::{self, Row};
use crate::narrow::exact;
use crate::text::{bits32, bits64, Output, Tokens};
use sage::database::{IndexedDatabase, PeptideIx};
use sage::mass::VALID_AA;
use sage::ml::matrix::Matrix;
use sage::ml::retention_model::RetentionModel;
use sage::peptide::Peptide;
use std::sync::OnceLock;

/// The answer where the Rust has none: no cell, no column.
pub const NONE: u64 = u64::MAX;

/// A leaf: its operation and arguments, and the answer, or none for an unknown operation.
type Leaf = fn(u64, [u64; 3]) -> Option<u64>;

/// Answers every record of the input by `leaf`.
pub fn answer(input: &mut Tokens, out: &mut Output, leaf: Leaf) -> Result<(), String> {
    while !input.is_empty() {
        let op = input.bits()?;
        let args = [input.bits()?, input.bits()?, input.bits()?];
        out.bits(leaf(op, args).ok_or_else(|| format!("no operation {op:02X} on {args:X?}"))?);
    }
    Ok(())
}

/// Conversions and tests of floats.
pub fn float(op: u64, [a, b, c]: [u64; 3]) -> Option<u64> {
    let (x, y, z) = (f64::from_bits(a), f64::from_bits(b), f64::from_bits(c));
    let narrow = f32::from_bits(a as u32);
    Some(match op {
        0x01 => bits32(x as f32),
        0x02 => narrow.ceil() as u32 as u64,
        0x03 => bits64(a as u32 as f64),
        0x04 => bits32(a as u32 as f32),
        0x05 => x.is_finite() as u64,
        0x06 => x.is_normal() as u64,
        0x07 => bits32(narrow.abs()),
        0x08 => bits64(min(x, y)),
        0x09 if y <= z => bits64(x.clamp(y, z)),
        0x0A => bits32(narrow),
        0x0B => bits64(x),
        0x0C => bits64(narrow as f64),
        0x0D => narrow.is_finite() as u64,
        0x0E => exact(x) as u64,
        _ => return None,
    })
}

/// `f64::min` with document 01's rule for equal zeros, which Rust leaves open: the earlier.
pub fn min(x: f64, y: f64) -> f64 {
    let rust = x.min(y);
    let ours = if y < x || x.is_nan() { y } else { x };
    assert!(rust == ours || rust.is_nan() && ours.is_nan(), "min({x:?}, {y:?}) is {rust:?}");
    ours
}

/// A letter's column as the fitted model maps it; a column's letter.
pub fn mass(op: u64, [a, _, _]: [u64; 3]) -> Option<u64> {
    static MAP: OnceLock<[usize; 26]> = OnceLock::new();
    let map = MAP.get_or_init(|| *any_model().probe_map());
    match op {
        0x01 if (b'A' as u64..=b'Z' as u64).contains(&a) => {
            Some(map[a as usize - b'A' as usize] as u64)
        }
        0x01 if a < 256 => Some(NONE),
        0x02 => VALID_AA.get(a as usize).map(|&letter| letter as u64),
        _ => None,
    }
}

/// A retention model fitted to one row; its map does not depend on the row.
pub fn any_model() -> RetentionModel {
    let peptide = Peptide { sequence: b"ACDK".to_vec(), monoisotopic: 435.2 };
    let db = IndexedDatabase { peptides: vec![peptide] };
    let row = Row { label: 1, q: 0.0, rt: 10.0, charge: 2, ims: 1.0, ..Row::new(0, PeptideIx(0)) };
    RetentionModel::fit(&db, &[row.feature()]).expect("one row is fitted")
}

/// `Matrix::get` over a matrix whose cells hold the number of their place.
pub fn matrix(op: u64, [a, b, c]: [u64; 3]) -> Option<u64> {
    let (rows, cols) = ((c >> 32) as usize, (c % (1 << 32)) as usize);
    if op != 0x01 || 1024 < rows || 1024 < cols {
        return None;
    }
    let cells: Vec<f64> = (0..rows * cols).map(|place| place as f64).collect();
    let cell = Matrix::new(cells, rows, cols).get(a as usize, b as usize);
    Some(cell.map_or(NONE, bits64))
}

/// Whether a row trains: aligned alone, a training row gives its file slope 0, another slope 1.
pub fn feature(op: u64, [a, b, _]: [u64; 3]) -> Option<u64> {
    let (label, q) = (a as u32 as i32, f32::from_bits(b as u32));
    let row = Row { label, q, rt: 10.0, ..Row::new(0, PeptideIx(0)) };
    let slope = alignment::align(1, &[row]).records[0].slope;
    match op {
        0x01 => Some((slope == 0.0) as u64),
        _ => None,
    }
}
