//! The stack that the library's functions take. Each is called on a thread with 2 MiB of stack, on an input that takes
//! its deepest way, and the thread takes at most `MOST` bytes in all: what it needs itself and what the wrapper in `raw`
//! takes is counted too.
//!
//!     cargo test --offline --test stack -- --nocapture      prints the bytes of each call

mod batch;
mod thread;

use batch::Batch;
use zorkamai::{mobility, raw, retention, Alignment, PeptideTable, Rows};

/// What the README promises.
const MOST: usize = 256 << 10;

/// The bytes of stack that a thread takes which makes a call. It is made twice with different paint, since what it
/// writes may be the paint. Its answer must be this.
fn bytes_of(name: &str, status: u8, mut call: impl FnMut() -> u8 + Send) -> usize {
    let deepest = [0x5A, 0xA5].map(|paint| {
        let (answer, bytes) = thread::on_painted_stack(paint, &mut call);
        assert_eq!(answer, status, "{name}");
        bytes
    });
    println!("{:>7} bytes: {name}", deepest[0].max(deepest[1]));
    deepest[0].max(deepest[1])
}

/// Holds a call to `MOST`.
fn within(name: &str, status: u8, call: impl FnMut() -> u8 + Send) {
    let bytes = bytes_of(name, status, call);
    assert!(bytes <= MOST, "{name} takes {bytes} bytes");
}

fn solve(name: &str, left: &[f64], status: u8) {
    let (n, c) = (100, 8);
    let right = vec![1.0; n * c];
    let (mut workspace, mut solution) = (vec![0.0; n * n + n * c], vec![0.0; n * c]);
    let call = || raw::solve(left, &right, n, c, &mut workspace, &mut solution).status;
    within(name, status, call);
}

fn align(files: usize) {
    let Batch { rows: Rows { file, peptide, label, q, rt, .. }, table } = Batch::new(files);
    let (peptides, n) = (table.len(), file.len());
    let mut work = vec![0.0; peptides * files];
    let [mut max, mut slope, mut intercept] = [(); 3].map(|_| vec![0.0; files]);
    let [mut of_max, mut of_slope, mut of_intercept] = [(); 3].map(|_| vec![false; files]);
    let (mut used, mut aligned) = (vec![0; files], vec![0.0; n]);
    within(&format!("align, {files} files"), 0, || {
        raw::align(
            &file,
            &peptide,
            &label,
            &q,
            &rt,
            files,
            peptides,
            &mut work,
            &mut max,
            &mut slope,
            &mut intercept,
            &mut used,
            &mut of_max,
            &mut of_slope,
            &mut of_intercept,
            &mut aligned,
        )
    });
}

fn retention() {
    let Batch { rows: Rows { peptide: p, label: l, q, rt, .. }, table } = Batch::new(3);
    let PeptideTable { letters, offsets, masses, logs } = table;
    let times: Vec<f32> = rt.iter().map(|rt| rt / 100.0).collect();
    let (mut work, mut beta) = (vec![0.0; retention::WORKSPACE], vec![0.0; retention::COLUMNS]);
    let [mut x, mut e] = [(); 2].map(|_| vec![0.0; p.len()]);
    within("retention_fit", 0, || {
        let (work, beta) = (&mut work, &mut beta);
        raw::retention_fit(&p, &l, &q, &times, &letters, &offsets, &masses, &logs, work, beta)
            .status
    });
    within("retention_predict", 0, || {
        raw::retention_predict(
            &p, &l, &q, &times, &letters, &offsets, &masses, &logs, &mut work, &mut beta, &mut x,
            &mut e,
        )
        .status
    });
}

fn mobility() {
    let Batch { rows, table } = Batch::new(3);
    let Rows { peptide: p, label: l, q, charge, mobility, .. } = rows;
    let PeptideTable { letters, offsets, masses, .. } = table;
    let (mut work, mut beta) = (vec![0.0; mobility::WORKSPACE], vec![0.0; mobility::COLUMNS]);
    let [mut x, mut e] = [(); 2].map(|_| vec![0.0; p.len()]);
    within("mobility_fit", 0, || {
        let (m, work, beta) = (&mobility, &mut work, &mut beta);
        raw::mobility_fit(&p, &l, &q, &charge, m, &letters, &offsets, &masses, work, beta).status
    });
    within("mobility_predict", 0, || {
        raw::mobility_predict(
            &p, &l, &q, &charge, &mobility, &letters, &offsets, &masses, &mut work, &mut beta,
            &mut x, &mut e,
        )
        .status
    });
}

/// A run, whose two fits are solved.
fn run(files: usize) {
    let Batch { rows, table } = Batch::new(files);
    let Rows { file, peptide: p, label: l, q, rt, charge, mobility } = rows;
    let PeptideTable { letters, offsets, masses, logs } = table;
    let mut work = vec![0.0; (masses.len() * files).max(mobility::WORKSPACE)];
    let [mut max, mut slope, mut intercept] = [(); 3].map(|_| vec![0.0; files]);
    let [mut of_max, mut of_slope, mut of_intercept] = [(); 3].map(|_| vec![false; files]);
    let (mut used, mut aligned) = (vec![0; files], vec![0.0; file.len()]);
    let (mut beta, mut beta2) = (vec![0.0; retention::COLUMNS], vec![0.0; mobility::COLUMNS]);
    let [mut x, mut e, mut x2, mut e2] = [(); 4].map(|_| vec![0.0; file.len()]);
    within(&format!("run, {files} files"), 0, || {
        let report = raw::run(
            &file,
            &p,
            &l,
            &q,
            &rt,
            &charge,
            &mobility,
            files,
            &letters,
            &offsets,
            &masses,
            &logs,
            &mut work,
            &mut max,
            &mut slope,
            &mut intercept,
            &mut used,
            &mut of_max,
            &mut of_slope,
            &mut of_intercept,
            &mut aligned,
            &mut beta,
            &mut x,
            &mut e,
            &mut beta2,
            &mut x2,
            &mut e2,
        );
        report.status.max(report.retention.status).max(report.mobility.status)
    });
}

#[test]
fn no_function_takes_more_than_promised() {
    let diagonal: Vec<f64> = (0..10_000).map(|i| (i % 101 == 0) as u8 as f64).collect();
    solve("solve", &diagonal, 0);
    solve("solve, which no ridge solves", &[f64::NAN; 10_000], 9);
    [1, 256, 257, 4_096].into_iter().for_each(align);
    retention();
    mobility();
    [1, 256, 257, 4_096].into_iter().for_each(run);
    let records = vec![Alignment { max_rt: 10.0, slope: 0.5, ..Default::default() }; 4_096];
    within("record_of", 0, || raw::record_of(&records, 4_095).status);
    within("aligned_time", 0, || raw::aligned_time(&records, 4_095, 3.0).status);
    let cells = [1.0; 35];
    within("column_step, which finds a cell", 1, || {
        raw::column_step(&cells, 5, 7, 4, 6).found as u8
    });
}

/// A call that fills 100,000 bytes of the stack takes so many at least, and one that does nothing fewer.
#[test]
fn what_a_call_fills_is_found() {
    let fills = || std::hint::black_box([7u8; 100_000])[99_999];
    assert!(100_000 <= bytes_of("fills", 7, fills));
    assert!(bytes_of("nothing", 0, || 0) < 100_000);
}
