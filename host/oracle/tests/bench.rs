//! The bench examples of document 01 that the Rust can show.

use oracle::alignment::{align, Row};
use oracle::leaf;
use oracle::program::program;
use oracle::solve::System;
use oracle::text::bits32;
use sage::database::{IndexedDatabase, PeptideIx};
use sage::ml::mobility_model::MobilityModel;
use sage::peptide::Peptide;

/// A training row.
fn row(file: usize, peptide: u32, rt: f32) -> Row {
    Row { label: 1, rt, charge: 2, ims: 1.0, ..Row::new(file, PeptideIx(peptide)) }
}

/// The one file's longest time, slope, intercept and number of kept peptides, as patterns, and its flags.
fn record(rows: &[Row]) -> [u64; 7] {
    align(1, rows).patterns()[0]
}

fn peptide(letters: &str) -> Peptide {
    Peptide { sequence: letters.as_bytes().to_vec(), monoisotopic: 400.0 }
}

/// The retention model's design row.
fn retention(letters: &str) -> Vec<f64> {
    leaf::any_model().probe_embed(&peptide(letters))
}

/// The mobility model's design row at charge 2.
fn mobility(letters: &str) -> Vec<f64> {
    let db = IndexedDatabase { peptides: vec![peptide("ACDK")] };
    let model = MobilityModel::fit(&db, &[row(0, 0, 10.0).feature()]).expect("one row is fitted");
    model.probe_embed(&peptide(letters), 2)
}

/// The columns that are not 0 in a span, each with its number.
fn held(row: &[f64], from: usize, to: usize) -> Vec<(usize, f64)> {
    (from..to).filter(|&i| row[i] != 0.0).map(|i| (i - from, row[i])).collect()
}

/// The ridge and the solution of a system with one right column.
fn solve(n: usize, left: &[f64], right: &[f64]) -> Option<(f64, Vec<f64>)> {
    let system = System { n, c: 1, left: left.to_vec(), right: right.to_vec() };
    system.solve().map(|s| (s.ridge, s.cells))
}

const A: usize = 0;
const D: usize = 2;
const K: usize = 8;

#[test]
fn longest_times() {
    assert_eq!(record(&[row(0, 0, 9.2)])[0], bits32(10.0));
    assert_eq!(record(&[row(0, 0, -3.0)])[0], 0);
    assert_eq!(record(&[row(0, 0, 5E9)])[0], bits32(4294967296.0));
    let ceil = |x: f32| leaf::float(2, [x.to_bits() as u64, 0, 0]);
    assert_eq!([ceil(9.2), ceil(-3.0), ceil(5E9)], [Some(10), Some(0), Some(4_294_967_295)]);
}

#[test]
fn no_rows() {
    assert_eq!(record(&[]), [0, 0x3F80_0000, 0, 0, 1, 1, 1]);
}

/// The time's share of a longest time of 0 is infinite, so the peptide is dropped.
#[test]
fn a_dropped_peptide() {
    assert_eq!(record(&[row(0, 0, -3.0)]), [0, 0x3F80_0000, 0, 0, 1, 1, 1]);
}

#[test]
fn peptides_are_counted_and_not_rows() {
    assert_eq!(record(&[row(0, 0, 5.0), row(0, 0, 7.0)])[3], 1);
    let outside = Row { label: -1, ..row(0, 2, 9.0) };
    assert_eq!(record(&[row(0, 0, 5.0), row(0, 1, 7.0), outside])[3], 2);
}

#[test]
fn the_programs_row() {
    let rows = [row(0, 0, 10.0)];
    assert_eq!(record(&rows), [0x4120_0000, 0, 0x3F80_0000, 1, 1, 1, 1]);
    assert_eq!(align(1, &rows).features[0].aligned_rt.to_bits(), 0x3F80_0000);
}

/// The same row as the program's text, and a text that is refused in each way, in the order of the checks.
#[test]
fn the_programs_text() {
    let head = "files=1\npeptides=1\n";
    let rows = "file=0\npeptide=0\nlabel=1\nq=00000000\nrt=41200000\n";
    let line = "status=0\nfile=0\nmax=41200000\nslope=00000000\nintercept=3F800000\n";
    let text = head.to_string() + rows;
    assert_eq!(program(text.as_bytes()), line.to_string() + "used=1\naligned=3F800000\n");
    let status = |text: &str, n: u8| assert_eq!(program(text.as_bytes()), format!("status={n}\n"));
    status(&text.replace("files=1", "files=+1"), 10);
    status(&(text.replace("files=1", "files=17") + "file=0\n"), 10);
    status(&text.replace("files=1", "files=17"), 2);
    status(&text.replace("files=1", "files=0").replace("file=0", "file=7"), 2);
    status(&text.replace("peptides=1", "peptides=65"), 2);
    status(&(head.to_string() + &rows.repeat(257)), 2);
    status(&text.replace("peptide=0", "peptide=1").replace("file=0", "file=1"), 4);
    status(&text.replace("peptide=0", "peptide=1"), 5);
}

/// A text of no rows, one of sixteen files, and one with twelve peptides at the longest time.
#[test]
fn the_programs_counts() {
    let none = "status=0\nfile=0\nmax=00000000\nslope=3F800000\nintercept=00000000\nused=0\n";
    assert_eq!(program(b"files=1\npeptides=1\n"), none);
    let last = none.replace("status=0\nfile=0", "file=15");
    assert!(program(b"files=16\npeptides=64\n").ends_with(&last));
    let row = |i| format!("file=0\npeptide={i}\nlabel=1\nq=00000000\nrt=41200000\n");
    let text: String = (0..12).map(row).collect();
    let answer = program(format!("files=1\npeptides=12\n{text}").as_bytes());
    assert_eq!(answer.lines().nth(5), Some("used=12"));
}

#[test]
fn two_files_two_peptides() {
    let rows = [row(0, 0, 5.0), row(0, 1, 10.0), row(1, 0, 10.0), row(1, 1, 20.0)];
    let records = align(2, &rows).patterns();
    assert_eq!([records[0][1], records[1][1]], [0x3F7F_FFFF; 2]);
    assert_eq!([records[0][3], records[1][3]], [2; 2]);
}

#[test]
fn acdk() {
    assert_eq!(held(&retention("ACDK"), 44, 66), [(D, 1.0)]);
    let row = mobility("ACDK");
    assert_eq!(held(&row, 66, 88), [(D, 1.0), (K, 1.0)]);
    let [branched, tiny, bulky, positive] = [88, 89, 91, 92].map(|i: usize| row[i]);
    assert_eq!([bulky, branched, tiny, positive], [1.0, 1.0, 1.0, 0.0]);
}

#[test]
fn acd_and_bj() {
    assert_eq!(held(&retention("ACD"), 44, 66), []);
    assert_eq!(held(&mobility("ACD"), 66, 88), [(D, 1.0)]);
    assert_eq!(retention("BJ")[A], 2.0);
    assert_eq!(mobility("BJ")[A], 2.0);
}

#[test]
fn longest_peptide() {
    let letters = "Y".repeat(255);
    assert_eq!(retention(&letters)[..22].iter().sum::<f64>(), 255.0);
    assert_eq!(mobility(&letters)[..22].iter().sum::<f64>(), 255.0);
}

#[test]
fn systems() {
    assert_eq!(solve(1, &[-1E-8], &[5.0]), Some((1E-8, vec![5.0])));
    assert_eq!(solve(2, &[-1.0, 0.0, 0.0, 1.0], &[3.0, 4.0]), None);
    assert_eq!(solve(1, &[f64::NAN], &[1.0]), None);
}

#[test]
fn border_of_training() {
    let trains = |q: u64| leaf::feature(1, [1, q, 0]);
    assert_eq!(trains(0x3C23_D70A), Some(1));
    assert_eq!(trains(0x3C23_D70B), Some(0));
    assert_eq!(trains(0x7FC0_0000), Some(0));
}
