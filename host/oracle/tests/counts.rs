//! The stored alignments have files with every sort of number of kept peptides and of flag, and the stored runs every
//! sort of number of predictions that are not exact.

#[allow(dead_code)] // Only what reads a stored answer is used.
#[path = "edits/answer.rs"]
mod answer;

use answer::Answer;
use oracle::alignment::{read_rows, Columns, Row};
use oracle::gen::edits::trains;
use oracle::run::Batch;
use oracle::text::Tokens;
use std::collections::BTreeSet;
use std::path::Path;

/// A file of a stored alignment: how many training rows it has, how many peptides those have, and what the answer says:
/// how many are kept, and whether longest time, slope and intercept are exact.
struct File {
    rows: usize,
    peptides: usize,
    used: usize,
    exact: [bool; 3],
}

/// A sort of file, by name.
type Sort = (&'static str, fn(&File) -> bool);

const SORTS: [Sort; 14] = [
    ("no training row", |f| f.rows == 0 && f.used == 0),
    ("every peptide dropped", |f| 0 < f.rows && f.used == 0),
    ("some peptides dropped", |f| 0 < f.used && f.used < f.peptides),
    ("one kept", |f| f.used == 1),
    ("2 to 20 kept", |f| 1 < f.used && f.used <= 20),
    ("over 20 kept", |f| 20 < f.used),
    ("all kept, some with two rows", |f| f.used == f.peptides && f.peptides < f.rows),
    ("longest time exact", |f| f.exact[0]),
    ("longest time not exact", |f| !f.exact[0]),
    ("slope exact", |f| f.exact[1]),
    ("slope exact, of two or more kept", |f| f.exact[1] && 1 < f.used),
    ("slope not exact", |f| !f.exact[1]),
    ("intercept exact, of one or more kept", |f| f.exact[2] && 0 < f.used),
    ("intercept not exact", |f| !f.exact[2]),
];

fn stored(folder: &str, name: &str) -> String {
    let path = Path::new(env!("CARGO_MANIFEST_DIR")).join("../../crates").join(folder).join(name);
    std::fs::read_to_string(&path).unwrap_or_else(|e| panic!("{}: {e}", path.display()))
}

/// The files of the next alignment. One without kept peptides has slope 1 and intercept 0, which are exact. A longest
/// time is not exact just where it is 4,294,967,295, as f32 4F800000.
fn files(cases: &mut Tokens, answers: &mut Tokens) -> Result<Vec<File>, String> {
    let (files, peptides, n) = (cases.number()?, cases.number()?, cases.number()?);
    let rows = read_rows(cases, n, files, peptides, Columns::Alignment)?;
    assert_eq!(answers.number()?, 0, "an alignment is accepted");
    let columns = answers.column(7, |t| t.column(files, Tokens::number))?;
    answers.column(n, Tokens::bits)?;
    let file = |file: usize| {
        let cell = |column: usize| columns[column][file];
        let flag = |column: usize| match cell(column) {
            0 | 1 => cell(column) == 1,
            other => panic!("{other} is no flag"),
        };
        let (used, exact) = (cell(3), [4, 5, 6].map(flag));
        assert!(used != 0 || [1, 2, 5, 6].map(cell) == [0x3F80_0000, 0, 1, 1]);
        assert_eq!(exact[0], cell(0) != 0x4F80_0000);
        let is_own = |row: &&Row| row.file == file && trains(row);
        let own: Vec<u32> = rows.iter().filter(is_own).map(|row| row.peptide.0).collect();
        let peptides = own.iter().collect::<BTreeSet<_>>().len();
        File { rows: own.len(), peptides, used, exact }
    };
    Ok((0..files).map(file).collect())
}

#[test]
fn every_sort_of_file_is_stored() {
    let [cases, answers] = ["stdin", "stdout"].map(|name| stored("alignment_vectors", name));
    let (mut cases, mut answers) = (Tokens::new(&cases), Tokens::new(&answers));
    let n = cases.number().expect("a count");
    let alignments: Vec<Vec<File>> =
        (0..n).map(|_| files(&mut cases, &mut answers).expect("an alignment")).collect();
    assert!(cases.is_empty() && answers.is_empty() && 300 <= n);
    println!("{n} alignments, {} files", alignments.iter().flatten().count());
    for (sort, is) in SORTS {
        let count = alignments.iter().flatten().filter(|file| is(file)).count();
        let among = alignments.iter().filter(|files| files.iter().any(is)).count();
        println!("{sort}: {count} files in {among} alignments");
        assert!(10 <= count, "{sort}: {count}");
    }
}

/// A model's predictions in a stored run: the number that answers its fit, how many rows there are, how many of their
/// predictions are NaN, and how many are not exact.
struct Predictions {
    fit: u64,
    rows: usize,
    nans: usize,
    inexact: usize,
}

impl Predictions {
    fn is_fitted(&self) -> bool {
        self.fit == 0 && 0 < self.rows
    }
}

/// A sort of predictions, by name.
type RunSort = (&'static str, fn(&Predictions) -> bool);

const RUN_SORTS: [RunSort; 5] = [
    ("all exact", |p| p.is_fitted() && p.inexact == 0),
    ("none exact", |p| p.is_fitted() && p.inexact == p.rows),
    ("some exact", |p| 0 < p.inexact && p.inexact < p.rows),
    ("some NaN", |p| 0 < p.nans),
    ("8 or 9", |p| p.fit != 0),
];

/// The predictions of a model, retention or mobility, of an answer. NaNs are among those that are not exact, and a
/// model that does not fit has none.
fn predictions(answer: &Answer, model: usize) -> Predictions {
    let fit = answer.fits[model];
    // Behind the aligned time, and retention's two columns if it fits.
    let column = 1 + 2 * (model == 1 && answer.fits[0] == 0) as usize;
    let is_nan = |row: &&Vec<u64>| fit == 0 && row[column] == 0x7FC0_0000;
    let (rows, nans) = (answer.rows.len(), answer.rows.iter().filter(is_nan).count());
    let inexact = answer.inexact[model] as usize;
    assert!(nans <= inexact && inexact <= rows && (fit == 0 || inexact == 0));
    Predictions { fit, rows, nans, inexact }
}

#[test]
fn every_sort_of_predictions_is_stored() {
    let [cases, answers] = ["stdin", "stdout"].map(|name| stored("run_vectors", name));
    let (mut cases, mut answers) = (Tokens::new(&cases), Tokens::new(&answers));
    let n = cases.number().expect("a count");
    let answer = |_| {
        let batch = Batch::read(&mut cases).expect("a batch");
        Answer::read(&mut answers, &batch).expect("an answer")
    };
    let runs: Vec<Answer> = (0..n).map(answer).collect();
    assert!(cases.is_empty() && answers.is_empty() && 300 <= n);
    for (sort, is) in RUN_SORTS {
        let count =
            |model: usize| runs.iter().filter(|answer| is(&predictions(answer, model))).count();
        let [retention, mobility] = [count(0), count(1)];
        println!("{sort}: retention's in {retention} of {n} runs, mobility's in {mobility}");
        assert!(5 <= retention + mobility, "{sort}");
    }
}
