//! Which f64 are exact as an f32: cases worked out by hand, and the stored records of the flag.

use oracle::alignment::{align, Row};
use oracle::leaf;
use oracle::narrow::exact;
use oracle::run::{run, Batch, Fit, Run};
use oracle::text::Tokens;
use sage::database::PeptideIx;
use sage::peptide::Peptide;
use std::path::Path;

fn row(file: usize, peptide: u32, rt: f32) -> Row {
    Row { label: 1, rt, charge: 2, ..Row::new(file, PeptideIx(peptide)) }
}

/// Each file's flags of longest time, slope and intercept.
fn flags(files: usize, rows: &[Row]) -> Vec<[bool; 3]> {
    align(files, rows).exact
}

#[test]
fn numbers() {
    let power = |n: i32| 2f64.powi(n);
    let max = f32::MAX as f64;
    for x in [0.0, -0.0, 1.0, -0.1f32 as f64, 16_777_216.0, power(-149), max, f64::INFINITY] {
        assert!(exact(x) && exact(-x), "{x:?}");
    }
    let next = 1.0 + f64::EPSILON;
    for x in [0.1, next, 16_777_217.0, 4_294_967_295.0, power(-150), power(128), max * next] {
        assert!(!exact(x) && !exact(-x), "{x:?}");
    }
    assert!(!exact(f64::NAN) && !exact(-f64::NAN));
    let flag = |x: f64| leaf::float(0x0E, [x.to_bits(), 0, 0]);
    assert_eq!([flag(-0.0), flag(0.1), flag(f64::NAN)], [Some(1), Some(0), Some(0)]);
}

/// A time at or above 2^32 gives 4,294,967,295, which no f32 is; every other longest time is an f32 rounded up.
#[test]
fn longest_times() {
    for (rt, is_exact) in [
        (10.0, true),
        (9.2, true),
        (-3.0, true),
        (f32::NAN, true),
        (4294967040.0, true),
        (4294967296.0, false),
        (5E9, false),
        (f32::INFINITY, false),
    ] {
        assert_eq!(flags(1, &[row(0, 0, rt)])[0][0], is_exact, "{rt}");
    }
}

/// Of no points the slope and the intercept are NaN and become 1 and 0.
#[test]
fn no_kept_peptide() {
    assert_eq!(flags(2, &[row(0, 0, 10.0)]), [[true; 3]; 2]);
    assert_eq!(flags(1, &[row(0, 0, -3.0)]), [[true; 3]]);
}

/// One peptide gives its files slope 0 and the mean of its shares as intercept. Half of 1 + 2^-40 narrows to 0.5, as
/// half of 1 does; a third of the longest time is no f32.
#[test]
fn one_peptide() {
    let outside = Row { label: -1, ..row(1, 0, 1.0) };
    let halves = |rt: f32| align(2, &[row(0, 0, 10.0), row(1, 0, rt), outside]);
    let (even, odd) = (halves(0.0), halves(2f32.powi(-40)));
    for aligned in [&even, &odd] {
        assert!(aligned.records.iter().all(|a| (a.slope, a.intercept) == (0.0, 0.5)));
    }
    assert_eq!(even.exact, [[true; 3]; 2]);
    assert_eq!(odd.exact, [[true, true, false]; 2]);
    let third = [row(0, 0, 1.0), Row { label: -1, ..row(0, 0, 3.0) }];
    assert_eq!(flags(1, &third), [[true, true, false]]);
}

/// Document 01's two files with two peptides: 0.125 by 0.12500001 is below 1 and no f32.
#[test]
fn two_peptides() {
    let rows = [row(0, 0, 5.0), row(0, 1, 10.0), row(1, 0, 10.0), row(1, 1, 20.0)];
    assert_eq!(flags(2, &rows), [[true, false, false]; 2]);
}

/// A run of a training row with time and mobility 0 and of rows outside, each with a peptide of its own and a charge.
/// Every target is 0, so every coefficient is, and a prediction is 0, or NaN where the design row is not finite.
fn all_zero(outside: &[(&[u8], f32, u8)]) -> Run {
    let of = |letters: &[u8], monoisotopic| Peptide { sequence: letters.to_vec(), monoisotopic };
    let mut batch =
        Batch { files: 1, peptides: vec![of(b"ACDK", 435.0)], rows: vec![row(0, 0, 0.0)] };
    for (i, &(letters, mass, charge)) in outside.iter().enumerate() {
        batch.peptides.push(of(letters, mass));
        batch.rows.push(Row { label: -1, charge, ..row(0, 1 + i as u32, 10.0) });
    }
    run(&batch)
}

fn counts(run: &Run) -> [usize; 2] {
    [run.retention_inexact, run.mobility_inexact]
}

/// An empty peptide has NaN shares and charge 0 an infinite inverse, for mobility alone; a mass of -1 has an infinite
/// log, for retention alone, and one that is NaN is a number in neither. Alone, the training row has a time of 0 of 0,
/// so its aligned time is NaN, and with it every coefficient of retention.
#[test]
fn predictions_that_are_nan_are_counted() {
    assert_eq!(counts(&all_zero(&[])), [1, 0]);
    assert_eq!(counts(&all_zero(&[(b"LVR", 386.0, 3), (b"K", 146.0, 1)])), [0, 0]);
    assert_eq!(counts(&all_zero(&[(b"", 18.0, 2), (b"LVR", 386.0, 0)])), [0, 2]);
    assert_eq!(counts(&all_zero(&[(b"LVR", -1.0, 2), (b"K", 146.0, 2)])), [1, 0]);
    let mixed = all_zero(&[(b"LVR", f32::NAN, 2), (b"LVR", 386.0, 2), (b"", -1.0, 0)]);
    assert_eq!(counts(&mixed), [2, 2]);
    assert!(mixed.aligned.features[1].predicted_rt.is_nan());
    assert_eq!(mixed.aligned.features[2].predicted_ims.to_bits(), 0);
}

/// Predictions far outside are clamped, and the borders are exact.
#[test]
fn clamped_predictions() {
    let peptides = vec![Peptide { sequence: b"ACDK".to_vec(), monoisotopic: 435.0 }];
    for (ims, border) in [(50.0, 2.0), (-50.0, 0.0)] {
        let rows = vec![Row { ims, ..row(0, 0, 10.0) }; 3];
        let run = run(&Batch { files: 1, peptides: peptides.clone(), rows });
        assert!(run.aligned.features.iter().all(|f| f.predicted_ims == border));
        assert_eq!(run.mobility_inexact, 0);
    }
}

/// A model that does not fit predicts nothing.
#[test]
fn no_model() {
    let peptides = vec![Peptide { sequence: vec![], monoisotopic: f32::NAN }];
    let with = |label: i32| {
        let rows = vec![Row { label, ..row(0, 0, 10.0) }];
        run(&Batch { files: 1, peptides: peptides.clone(), rows })
    };
    let (none, unsolved) = (with(-1), with(1));
    assert_eq!([counts(&none), counts(&unsolved)], [[0, 0]; 2]);
    assert!(matches!([none.retention, none.mobility], [Fit::NoTrainingRows, Fit::NoTrainingRows]));
    assert!(matches!([unsolved.retention, unsolved.mobility], [Fit::NotSolved, Fit::NotSolved]));
}

/// The powers of two of the first and the last 1 of a number that is neither 0 nor infinite nor NaN.
fn span(bits: u64) -> Option<(i32, i32)> {
    let (exponent, digits) = ((bits >> 52 & 0x7FF) as i32, bits & ((1 << 52) - 1));
    let (digits, last) = match exponent {
        0 => (digits, -1074),
        _ => (digits | 1 << 52, exponent - 1075),
    };
    let is_number = exponent != 0x7FF && digits != 0;
    is_number.then(|| (last + digits.ilog2() as i32, last + digits.trailing_zeros() as i32))
}

/// Whether an f32 has this value, by the digits alone.
fn held(bits: u64) -> bool {
    match span(bits) {
        Some((first, last)) => first <= 127 && -149 <= last && first - last < 24,
        None => !f64::from_bits(bits).is_nan(),
    }
}

/// Whether the number is in the middle between two f32: its last digit is the first that an f32 drops.
fn is_tie(bits: u64) -> bool {
    span(bits).is_some_and(|(first, last)| first <= 127 && last == (first - 24).max(-150))
}

/// A sort of f64, by name: its pattern, and what narrowing makes of it.
type Sort = (&'static str, fn(u64, f64, f32) -> bool);

const SORTS: [Sort; 13] = [
    ("NaN", |_, x, _| x.is_nan()),
    ("infinity", |_, x, _| x.is_infinite()),
    ("+0.0", |bits, _, _| bits == 0),
    ("-0.0", |bits, _, _| bits == 1 << 63),
    ("to infinity", |_, x, y| x.is_finite() && y.is_infinite()),
    ("the largest f32 and above", |_, x, y| y.abs() == f32::MAX && (y as f64).abs() <= x.abs()),
    ("to zero", |_, x, y| x != 0.0 && y == 0.0),
    ("subnormal, exact", |bits, _, y| y.is_subnormal() && held(bits)),
    ("subnormal, not exact", |bits, _, y| y.is_subnormal() && !held(bits)),
    ("normal, exact", |bits, _, y| y.is_normal() && held(bits)),
    ("normal, not exact", |bits, _, y| y.is_normal() && !held(bits)),
    ("a tie to the smaller", |bits, x, y| is_tie(bits) && (y as f64).abs() < x.abs()),
    ("a tie to the larger", |bits, x, y| is_tie(bits) && x.abs() < (y as f64).abs()),
];

fn stored(name: &str) -> String {
    let folder = Path::new(env!("CARGO_MANIFEST_DIR")).join("../../crates/float_vectors");
    let path = folder.join(name);
    std::fs::read_to_string(&path).unwrap_or_else(|e| panic!("{}: {e}", path.display()))
}

/// The stored flags are what the digits say, and every sort of number is among them.
#[test]
fn stored_flags() {
    let (cases, answers) = (stored("stdin"), stored("stdout"));
    let (mut cases, mut answers) = (Tokens::new(&cases), Tokens::new(&answers));
    let mut patterns = vec![];
    while !cases.is_empty() {
        let record = cases.column(4, Tokens::bits).expect("a record");
        let answer = answers.bits().expect("an answer");
        if record[0] == 0x0E {
            assert_eq!(answer, held(record[1]) as u64, "{:016X}", record[1]);
            patterns.push(record[1]);
        }
    }
    let exact = patterns.iter().filter(|bits| held(**bits)).count();
    println!("{} records, {exact} exact", patterns.len());
    assert!(answers.is_empty() && 2_100 <= patterns.len());
    assert!(1_000 <= exact && 1_000 <= patterns.len() - exact);
    for (sort, is) in SORTS {
        let is = |bits: &u64| is(*bits, f64::from_bits(*bits), f64::from_bits(*bits) as f32);
        let count = patterns.iter().filter(|bits| is(bits)).count();
        println!("{sort}: {count}");
        assert!(5 <= count, "{sort}: {count}");
    }
}
