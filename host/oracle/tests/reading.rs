//! What the stand-ins fix, and that what they leave open can't be seen in an answer.

use oracle::alignment::{align, Row};
use oracle::rng::Rng;
use oracle::solve::ridges;
use oracle::text::{bits32, bits64};
use sage::database::PeptideIx;

/// Training rows with random times in few files and peptides, one time in four a zero.
fn rows(r: &mut Rng) -> Vec<Row> {
    let row = |r: &mut Rng| {
        let rt = if r.one_in(4) { 0.0 } else { 100.0 * r.unit() as f32 };
        Row { label: 1, rt, ..Row::new(r.below(3), PeptideIx(r.below(40) as u32)) }
    };
    (0..150).map(|_| row(r)).collect()
}

#[test]
fn the_ridges() {
    let bits: Vec<u64> = ridges().iter().map(|x| x.to_bits()).collect();
    assert_eq!(bits.len(), 9);
    assert_eq!([bits[0], bits[8]], [1E-8f64.to_bits(), 1f64.to_bits()]);
    assert_eq!(bits[3..5], [0x3EE4_F8B5_88E3_68F0, 0x3F1A_36E2_EB1C_432C]);
}

/// `reduce` may join the one group to a zero or not: a sum begun at 0.0 is never -0.0.
#[test]
fn joining_a_sum_to_zero_changes_nothing() {
    let mut r = Rng::new(1);
    let values = [0.0, -0.0, 1.0, -1.0, 0.5, -0.5, 1E-308, -1E-308, f64::INFINITY];
    for _ in 0..10_000 {
        let sum = (0..r.below(6)).fold(0.0, |sum, _| sum + r.pick(&values));
        assert_eq!(bits64(0.0 + sum), bits64(sum));
    }
}

/// Rust leaves open which of two equal zeros `min` gives; a zero's sign can't be seen in the records.
#[test]
fn the_sign_of_a_zero_time_is_not_seen() {
    let mut r = Rng::new(3);
    for _ in 0..200 {
        let mut rows = rows(&mut r);
        let before = align(3, &rows).patterns();
        for row in rows.iter_mut().filter(|row| row.rt == 0.0) {
            row.rt = r.pick(&[0.0, -0.0]);
        }
        assert_eq!(align(3, &rows).patterns(), before);
    }
}

#[test]
fn one_nan() {
    assert_eq!(bits32(f32::from_bits(0xFF80_0001)), 0x7FC0_0000);
    assert_eq!(bits64(f64::from_bits(0xFFF8_0000_0000_0123)), 0x7FF8_0000_0000_0000);
}

#[test]
fn malformed_cases_are_refused() {
    for (kind, cases) in [
        ("gauss", "1 1 1 0"),
        ("gauss", "1 0 1"),
        ("gauss", "1 1 1 0 0 0"),
        ("gauss", "1 65 1"),
        ("float", "01 0 0"),
        ("float", "09 0 3FF0000000000000 0"),
        ("float", "01 x 0 0"),
        ("mass", "01 100 0 0"),
        ("alignment", "1 1 1 1 1 0 1 0 0"),
        ("run", "1 1 1 1 0 0 1 61 0 0"),
        ("no such kind", ""),
    ] {
        assert!(oracle::answers(kind, cases).is_err(), "{kind}: {cases}");
    }
}

/// A comment, short tokens and any white space are taken.
#[test]
fn a_case_by_hand() {
    let answer = oracle::answers("gauss", "1 # one system\n1 1\nBE45798EE2308C3A 4014000000000000");
    assert_eq!(answer.as_deref(), Ok("0000000000000000\n3E45798EE2308C3A\n4014000000000000\n"));
}
