//! Pairs whose ends have one peptide table.

use crate::answer::Answer;
use crate::ends::{all_fields, Count, ONE_TABLE};
use crate::library::both_by_three_calls;
use oracle::gen::edits::PAIRS;
use oracle::rng::Rng;
use oracle::run::Batch;
use oracle::text::Tokens;
use std::path::{Path, PathBuf};

#[test]
fn the_rust_keeps_the_rule() {
    Count::rust(ONE_TABLE.iter()).at_least(2000, "one table, the Rust");
}

/// The library, by three calls with workspaces of different lengths, gives what the Rust gives.
#[test]
fn three_calls_keep_the_rule() {
    let r = &mut Rng::new(0x3CA1);
    let count = Count::held(ONE_TABLE.iter(), |ends| both_by_three_calls(r, &ends.batches));
    count.at_least(2000, "one table, three calls");
}

/// A file of the program's folder, or the one that `$RUN_STDOUT` names for what it writes.
fn stored_text(name: &str) -> String {
    let folder = Path::new(env!("CARGO_MANIFEST_DIR")).join("../../crates/run_vectors");
    let path = match std::env::var("RUN_STDOUT") {
        Ok(path) if name == "stdout" => PathBuf::from(path),
        _ => folder.join(name),
    };
    std::fs::read_to_string(&path).unwrap_or_else(|e| panic!("{}: {e}", path.display()))
}

/// The stored pairs, in what the program writes, which must be what the Rust gives: `rt ci` holds that to its file
/// `stdout`, byte for byte.
#[test]
fn the_proved_program_keeps_the_rule() {
    let (cases, text) = (stored_text("stdin"), stored_text("stdout"));
    let (mut cases, mut text) = (Tokens::new(&cases), Tokens::new(&text));
    let n = cases.number().expect("a count");
    let run = |_| {
        let batch = Batch::read(&mut cases).expect("a batch");
        let answer = Answer::read(&mut text, &batch).expect("an answer");
        (batch, answer)
    };
    let runs: Vec<(Batch, Answer)> = (0..n).map(run).collect();
    assert!(cases.is_empty() && text.is_empty());
    let mut count = Count::default();
    for (pair, ends) in runs[n - 2 * PAIRS..].chunks(2).zip(ONE_TABLE.iter()) {
        let [(before, was), (after, is)] = pair else { panic!("both ends of a pair") };
        assert_eq!([all_fields(&before.rows), all_fields(&after.rows)], ends.marks);
        count.add(ends, ends.hold([was, is]));
    }
    assert_eq!(count.pairs, PAIRS);
    count.at_least(1000, "one table, the program");
}
