//! Texts for the align program: well-formed ones, refused ones, and ones that are malformed in every way the grammar allows.

use super::pools::{edge32, nan32};
use crate::program::{block, BYTES};
use crate::rng::Rng;

/// The two lines and the row of document 01's example.
const HEAD: &str = "files=1\npeptides=1\n";
const ROW: &str = "file=0\npeptide=0\nlabel=1\nq=00000000\nrt=41200000\n";

/// All texts: the number of them, then a block for each.
pub fn cases() -> Vec<u8> {
    let texts = texts();
    let count = format!("{:016X}\n", texts.len()).into_bytes();
    std::iter::once(count).chain(texts.iter().map(|text| block(text))).collect::<Vec<_>>().concat()
}

/// How many texts there are, and how many of them each status answers.
pub fn tally() -> String {
    let answers: Vec<String> = texts().iter().map(|text| crate::program::program(text)).collect();
    let count = |s: u8| answers.iter().filter(|a| a.starts_with(&format!("status={s}\n"))).count();
    let [accepted, limits, files, peptides, malformed] = [0, 2, 4, 5, 10].map(count);
    let total = answers.len();
    format!("{total} texts: {accepted} accepted, {limits} past a limit, {files} with a file out of range, {peptides} with a peptide, {malformed} malformed")
}

/// The families.
fn texts() -> Vec<Vec<u8>> {
    let mut r = Rng::new(0x7E87);
    let mut all = accepted(&mut r);
    all.extend(refused(&mut r));
    all.extend(malformed(&mut r));
    let mut all: Vec<Vec<u8>> = all.into_iter().map(String::into_bytes).collect();
    all.extend(spoiled(&mut r));
    all.extend(many_files(&mut Rng::new(0x16F)).into_iter().map(String::into_bytes));
    all
}

/// The two lines before the rows.
fn head(files: &str, peptides: &str) -> String {
    format!("files={files}\npeptides={peptides}\n")
}

/// A row's five lines.
fn row(file: &str, peptide: &str, label: &str, q: &str, rt: &str) -> String {
    format!("file={file}\npeptide={peptide}\nlabel={label}\nq={q}\nrt={rt}\n")
}

/// The example with another row.
fn one(file: &str, peptide: &str, label: &str, q: &str, rt: &str) -> String {
    HEAD.to_string() + &row(file, peptide, label, q, rt)
}

/// A training row at a time.
fn training(file: &str, peptide: &str, rt: f32) -> String {
    row(file, peptide, "1", "00000000", &format!("{:08X}", rt.to_bits()))
}

/// A time: mostly plain.
fn time(r: &mut Rng) -> u32 {
    match r.below(10) {
        0 => edge32(r),
        1 => nan32(r),
        2 => r.pick(&[-3f32, 5E9, 4294967296.0, 0.0, -0.0, f32::INFINITY, -0.5]).to_bits(),
        _ => (r.range(0, 12_000) as f32 / 100.0).to_bits(),
    }
}

/// A q: mostly one that trains.
fn q_value(r: &mut Rng) -> u32 {
    match r.below(8) {
        0 => r.pick(&[0x3C23_D70A, 0x3C23_D70B, 0x3C23_D709]),
        1 => nan32(r),
        2 => edge32(r),
        _ => (r.range(0, 99) as f32 / 10_000.0).to_bits(),
    }
}

/// A text of so many files, peptides and rows, each row's numbers in range.
fn plain(r: &mut Rng, files: usize, peptides: usize, rows: usize) -> String {
    let mut text = head(&files.to_string(), &peptides.to_string());
    for _ in 0..rows {
        let label = match r.one_in(4) {
            true => r.pick(&["-1", "0", "2147483647", "-2147483648", "11"]),
            false => "1",
        };
        let (file, peptide) = (r.below(files).to_string(), r.below(peptides).to_string());
        let (q, rt) = (format!("{:08X}", q_value(r)), format!("{:08X}", time(r)));
        text += &row(&file, &peptide, label, &q, &rt);
    }
    text
}

/// A well-formed text of exactly `n` bytes: rows, some with a longer label.
fn sized(n: usize) -> String {
    let (rows, mut extra) = ((n - HEAD.len()) / ROW.len(), (n - HEAD.len()) % ROW.len());
    let mut text = HEAD.to_string();
    for _ in 0..rows {
        let more = extra.min(9);
        extra -= more;
        text += &row("0", "0", &"1".repeat(1 + more), "00000000", "41200000");
    }
    assert_eq!(text.len(), n);
    text
}

/// Accepted: document 01's examples, the borders of each number, and plain texts of up to 8 files.
fn accepted(r: &mut Rng) -> Vec<String> {
    let mut all = vec![
        HEAD.to_string() + ROW,
        HEAD.to_string(),
        head("8", "64"),
        head("1", "0"),
        head("8", "0"),
        head("9", "1"),
        head("15", "64"),
        head("16", "1"),
        head("16", "64"),
        head("16", "0"),
        head("2", "2")
            + &training("0", "0", 5.0)
            + &training("0", "1", 10.0)
            + &training("1", "0", 10.0)
            + &training("1", "1", 20.0),
        HEAD.to_string() + &training("0", "0", 9.2),
        HEAD.to_string() + &training("0", "0", -3.0),
        HEAD.to_string() + &training("0", "0", 5E9),
        one("0", "0", "1", "3C23D70A", "41200000"),
        one("0", "0", "1", "3C23D70B", "41200000"),
        one("0", "0", "-1", "00000000", "41200000"),
        one("0", "0", "0", "00000000", "41200000"),
        one("0", "0", "2147483647", "00000000", "41200000"),
        one("0", "0", "-2147483648", "00000000", "41200000"),
        one("0", "0", "1", "FFFFFFFF", "7F800001"),
        one("0", "0", "1", "80000000", "FFC00001"),
        one("0", "0", "1", "00000000", "7F800000"),
        one("0", "0", "1", "00000000", "FF800000"),
        one("0", "0", "1", "00000000", "00000000"),
    ];
    for i in 0..60 {
        let (files, peptides) = (r.range(1, 8), r.range(1, [8, 64][i % 2]));
        let rows = r.range(0, [5, 40, 40][i % 3]);
        all.push(plain(r, files, peptides, rows));
    }
    all.extend([(8, 64, 256), (1, 1, 256), (8, 1, 255)].map(|(f, p, n)| plain(r, f, p, n)));
    all
}

/// Well formed and refused: past a limit, then a file, then a peptide out of range, whatever the order of the rows.
fn refused(r: &mut Rng) -> Vec<String> {
    let late = row("1", "0", "1", "00000000", "41200000");
    vec![
        head("0", "1"),
        head("17", "1"),
        head("256", "1"),
        head("4294967295", "1"),
        head("1", "65"),
        head("1", "4294967295"),
        head("0", "0") + ROW,
        head("9", "65") + ROW,
        head("17", "65") + ROW,
        sized(BYTES),
        plain(r, 8, 64, 257),
        plain(r, 1, 1, 300) + &row("9", "9", "1", "00000000", "41200000"),
        one("1", "0", "1", "00000000", "41200000"),
        one("4294967295", "0", "1", "00000000", "41200000"),
        one("0", "1", "1", "00000000", "41200000"),
        one("0", "4294967295", "1", "00000000", "41200000"),
        one("1", "1", "1", "00000000", "41200000"),
        one("0", "1", "1", "00000000", "41200000") + &late,
        HEAD.to_string() + ROW + &row("0", "1", "-1", "7FC00000", "7FC00000"),
        head("2", "0") + &late,
        head("8", "64") + &row("8", "63", "1", "00000000", "41200000"),
        head("8", "64") + &row("7", "64", "1", "00000000", "41200000"),
        head("16", "64") + &row("16", "63", "1", "00000000", "41200000"),
        head("16", "64") + &row("15", "64", "1", "00000000", "41200000"),
    ]
}

/// What a malformed text has instead of a part of the example.
const WRONG: [(&str, &str); 89] = [
    // spaces, tabs, other bytes
    ("files=1", "files=1 "),
    ("files=1", " files=1"),
    ("files=1", "files =1"),
    ("files=1", "files= 1"),
    ("label=1", "label=1\t"),
    ("q=00000000", "q=0000 0000"),
    ("rt=41200000", "rt=41200000 "),
    ("peptide=0", "peptide=0\u{0}"),
    ("files=1", "\u{feff}files=1"),
    ("file=0", "file=\u{660}"),
    ("peptides=1\n", "peptides=1\r\n"),
    // keys: another, missing, one too many, in another order
    ("files=", "Files="),
    ("files=", "file="),
    ("files=", "filess="),
    ("files=", "files:"),
    ("files=1", "files"),
    ("files=1", "1"),
    ("files=1", "=1"),
    ("peptides=", "peptide="),
    ("label=", "lable="),
    ("q=", "Q="),
    ("rt=", "rt=="),
    ("q=", "qq="),
    ("label=1\n", ""),
    ("q=00000000\n", ""),
    ("file=0\n", ""),
    ("rt=41200000\n", ""),
    ("label=1\n", "label=1\nlabel=1\n"),
    ("rt=41200000\n", "rt=41200000\ncharge=2\n"),
    ("files=1\n", "files=1\nfiles=1\n"),
    ("files=1\npeptides=1\n", "peptides=1\nfiles=1\n"),
    ("file=0\npeptide=0\n", "peptide=0\nfile=0\n"),
    ("q=00000000\nrt=41200000\n", "rt=41200000\nq=00000000\n"),
    ("label=1\nq=00000000\n", "q=00000000\nlabel=1\n"),
    ("file=0\npeptide=0", "file=0peptide=0"),
    ("peptides=1\n", "peptides=1\nstatus=0\n"),
    ("files=1\n", "files=1\n\n"),
    // decimal numbers
    ("files=1", "files=01"),
    ("files=1", "files=+1"),
    ("files=1", "files=-1"),
    ("files=1", "files="),
    ("files=1", "files=1.0"),
    ("files=1", "files=1e0"),
    ("files=1", "files=0x1"),
    ("files=1", "files=1,000"),
    ("files=1", "files=4294967296"),
    ("files=1", "files=4294967297"),
    ("files=1", "files=18446744073709551617"),
    ("files=1", "files=99999999999999999999999999"),
    ("files=1", "files=one"),
    ("peptides=1", "peptides=00"),
    ("peptides=1", "peptides=4294967296"),
    ("peptides=1", "peptides=+0"),
    ("file=0", "file=00"),
    ("file=0", "file=-0"),
    ("file=0", "file=4294967296"),
    ("peptide=0", "peptide=007"),
    ("peptide=0", "peptide=-1"),
    ("label=1", "label=-0"),
    ("label=1", "label=+1"),
    ("label=1", "label=01"),
    ("label=1", "label=-01"),
    ("label=1", "label=--1"),
    ("label=1", "label=-"),
    ("label=1", "label="),
    ("label=1", "label=2147483648"),
    ("label=1", "label=-2147483649"),
    ("label=1", "label=4294967297"),
    ("label=1", "label=1-"),
    ("label=1", "label=\u{2212}1"),
    ("label=1", "label=00"),
    ("label=1", "label=-+1"),
    // hex digits
    ("q=00000000", "q=0000000"),
    ("q=00000000", "q=000000000"),
    ("q=00000000", "q="),
    ("q=00000000", "q=3c23d70a"),
    ("q=00000000", "q=3C23D70a"),
    ("q=00000000", "q=0X000000"),
    ("q=00000000", "q=G0000000"),
    ("q=00000000", "q=0000000@"),
    ("q=00000000", "q=+0000000"),
    ("q=00000000", "q=-0000000"),
    ("q=00000000", "q=0000000:"),
    ("rt=41200000", "rt=4120000"),
    ("rt=41200000", "rt=0041200000"),
    ("rt=41200000", "rt=4120000g"),
    ("rt=41200000", "rt=10.0"),
    ("rt=41200000", "rt=nan"),
    ("rt=41200000", "rt=4120/000"),
];

/// Malformed.
fn malformed(r: &mut Rng) -> Vec<String> {
    let good = HEAD.to_string() + ROW;
    let mut all: Vec<String> =
        ["", "\n", "files=1", "files=1\n", "files=1\npeptides=1", "peptides=1\n"]
            .map(str::to_string)
            .into();
    // the last LF is missing, a byte too many, CR for LF, and a row cut short in and after its lines
    all.push(good[..good.len() - 1].to_string());
    all.extend([format!("{good}\n"), format!("\n{good}"), format!("{good}x")]);
    all.extend([good.replace('\n', "\r\n"), good.replace('\n', "\r")]);
    all.extend([3, 7, 12, 17, 20, 25, 30, 36, 44].map(|at| HEAD.to_string() + &ROW[..at]));
    for (part, instead) in WRONG {
        assert!(good.contains(part), "{part}");
        all.push(good.replacen(part, instead, 1));
    }
    // a byte behind the head; 10 before 2, 4 and 5
    all.push(head("9", "1") + "x");
    all.push(head("17", "1") + &row("0", "0", "1", "00000000", "4120000a"));
    all.push(head("0", "65") + &ROW[..ROW.len() - 1]);
    all.push(one("1", "1", "1", "00000000", "4120000a"));
    all.push(one("1", "0", "1", "00000000", "41200000") + "file=0\n");
    // a fault far down, and a text that is too long by a byte
    all.push(plain(r, 4, 16, 200) + "file=0\n");
    all.push(plain(r, 4, 16, 300) + " ");
    all.push(sized(BYTES + 1));
    all.push(sized(BYTES) + "x");
    all
}

/// The example with a byte changed, and bytes that are no text.
fn spoiled(r: &mut Rng) -> Vec<Vec<u8>> {
    let mut all = vec![vec![0; 16], vec![0xFF; 16]];
    for _ in 0..20 {
        let mut text = (HEAD.to_string() + ROW).into_bytes();
        let at = r.below(text.len());
        text[at] =
            r.pick(&[0x00, 0x0D, 0x20, 0x2F, 0x3A, 0x40, 0x47, 0x61, 0x66, 0x7F, 0x80, 0xFF]);
        all.push(text);
    }
    all
}

/// Accepted: plain texts of 9 to 16 files, and one as large as may be.
fn many_files(r: &mut Rng) -> Vec<String> {
    let mut all = vec![];
    for i in 0..12 {
        let (peptides, rows) = (r.range(1, 20), r.range(10, 40));
        all.push(plain(r, 9 + i % 8, peptides, rows));
    }
    all.push(plain(r, 16, 64, 256));
    all
}
