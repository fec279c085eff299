//! Each number of the table of refusals, by a call that meets it, and what the error says.

use zorkamai::{align, mobility, retention, run, solve, Error, PeptideTable, Row, Rows};

fn rows(n: usize) -> Rows {
    (0..n)
        .map(|_| Row { label: 1, charge: 2, mobility: 0.5, rt: 1.0, ..Default::default() })
        .collect()
}

fn table() -> PeptideTable {
    let mut table = PeptideTable::default();
    table.push(b"ACDK", 435.18);
    table
}

/// The error has this number, and its text these words.
fn is<T: std::fmt::Debug>(result: Result<T, Error>, number: u8, words: &str) {
    let error = result.expect_err("the call is refused");
    assert_eq!(error.number(), number, "{error}");
    assert!(error.to_string().contains(words), "{error}");
}

#[test]
fn one() {
    let mut cut = rows(2);
    cut.rt.pop();
    is(align(&cut, 1, 1), 1, "2 of file, 2 of peptide, 2 of label, 2 of q, 1 of rt");
    is(run(&cut, 1, &table()), 1, "1 of rt, 2 of charge, 2 of mobility, 1 of masses, 1 of logs");
    cut.charge.pop();
    is(mobility::fit(&cut, &table()), 1, "1 of charge");
    is(retention::fit(&rows(2), &[0.5], &table()), 1, "1 of aligned");
    is(solve(&[1.0, 2.0], &[1.0], 1, 1), 1, "2 of the left side, 1 of n × n");
}

#[test]
fn two() {
    is(align(&rows(1), 0, 1), 2, "files: 0 is not from 1 to 4096");
    is(align(&rows(1), 4_097, 1), 2, "files: 4097 is not from 1 to 4096");
    is(align(&rows(1), 4_096, 4_097), 2, "peptides × files: 16781312 is not from 0 to 16777216");
    is(align(&rows(1_048_577), 1, 1), 2, "rows: 1048577");
    is(run(&rows(1), 4_097, &table()), 2, "files: 4097 is not from 1 to 4096");
    is(mobility::fit(&rows(1_048_577), &table()), 2, "rows: 1048577");
    is(solve(&[], &[], 0, 1), 2, "order: 0 is not from 1 to 100");
    is(solve(&[1.0], &[1.0; 9], 1, 9), 2, "right columns: 9 is not from 1 to 8");
}

/// As many files as may be, with as many peptides as that leaves: the last file's row has the last peptide.
#[test]
fn not_two() {
    let mut last = rows(1);
    (last.file[0], last.peptide[0]) = (4_095, 4_095);
    let aligned = align(&last, 4_096, 4_096).expect("within the limits");
    assert_eq!(aligned.records[4_095].used, 1);
    last.file[0] = 4_096;
    is(align(&last, 4_096, 4_096), 4, "row 0 is of file 4096, and there are 4096 files");
    assert!(run(&rows(1), 4_096, &table()).is_ok());
}

#[test]
fn three() {
    let mut none = [0.0; 0];
    let answer = zorkamai::raw::solve(&[1.0], &[1.0], 1, 1, &mut [0.0; 1], &mut none);
    assert_eq!(answer.status, 3);
    let (mut used, mut exact) = ([7; 3], [false; 3]);
    assert_eq!((align_two_files(&mut used[..1], &mut exact), used), (3, [7; 3]));
    assert_eq!((align_two_files(&mut used, &mut exact[..1]), exact), (3, [false; 3]));
    assert_eq!((align_two_files(&mut used, &mut exact), used), (0, [0, 0, 7]));
    assert_eq!(exact, [true, true, false]);
}

/// An alignment of two files without rows, with these cells for the counts and for the flags of the intercepts.
fn align_two_files(used: &mut [u32], intercept_exact: &mut [bool]) -> u8 {
    let [mut max_rt, mut slope, mut intercept] = [[0.0; 2]; 3];
    let [mut max_rt_exact, mut slope_exact] = [[false; 2]; 2];
    let (no_cells, no_times) = (&mut [], &mut []);
    zorkamai::raw::align(
        &[],
        &[],
        &[],
        &[],
        &[],
        2,
        0,
        no_cells,
        &mut max_rt,
        &mut slope,
        &mut intercept,
        used,
        &mut max_rt_exact,
        &mut slope_exact,
        intercept_exact,
        no_times,
    )
}

#[test]
fn four_and_five() {
    let mut past = rows(3);
    past.peptide[2] = 7;
    is(align(&past, 1, 7), 5, "row 2 is of peptide 7, and there are 7 peptides");
    is(mobility::predict(&past, &table()), 5, "row 2 is of peptide 7, and there are 1 peptides");
    is(run(&past, 1, &table()), 5, "row 2 is of peptide 7, and there are 1 peptides");
    past.file[1] = 1;
    is(run(&past, 1, &table()), 4, "row 1 is of file 1, and there are 1 files");
    is(align(&past, 1, 7), 4, "row 1 is of file 1, and there are 1 files");
    is(zorkamai::record_of(&[], 3), 4, "file 3 has no record: there are 0 files");
    is(zorkamai::aligned_time(&[], 3, 1.0), 4, "file 3 has no record");
}

#[test]
fn six_and_seven() {
    let mut lower = table();
    lower.letters[1] = b'c';
    is(mobility::fit(&rows(1), &lower), 6, "letter 1 is 'c', not one of A to Z");
    let with = |offsets: &[u32]| {
        let mut table = table();
        table.offsets = offsets.to_vec();
        mobility::fit(&rows(1), &table)
    };
    is(with(&[0]), 7, "1 offsets for 1 peptides");
    is(with(&[1, 4]), 7, "the first offset is 1, not 0");
    is(with(&[0, 3]), 7, "the last offset is 3, and there are 4 letters");
    let mut falls = table();
    falls.push(b"AC", 192.06);
    falls.offsets = vec![0, 7, 6];
    is(mobility::fit(&rows(1), &falls), 7, "peptide 1: offset 6 after 7");
    let mut long = table();
    long.push(&[b'A'; 256], 1.0);
    is(retention::fit(&rows(1), &[0.5], &long), 7, "peptide 1 has over 255 letters");
}

#[test]
fn eight_and_nine() {
    let mut outside = rows(2);
    outside.label = vec![-1, 0];
    let ran = run(&outside, 1, &table()).expect("an alignment without training rows is accepted");
    is(ran.retention, 8, "no row trains");
    is(ran.mobility, 8, "no row trains");
    is(mobility::fit(&outside, &table()), 8, "no row trains");
    is(retention::predict(&outside, &[0.5, 0.5], &table()), 8, "no row trains");
    is(solve(&[f64::NAN], &[1.0], 1, 1), 9, "no ridge");
}
