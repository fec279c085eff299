//! The comparison sees what the rule forbids, whoever answers.

use crate::answer::{rust, Answer};
use crate::calls::Input;
use crate::ends::{all_fields, host_pairs, without_number, Difference, Ends};
use crate::library::{adapted, one_call, three_calls, with_times};
use oracle::alignment::{align, Row};
use oracle::gen::edits::{stored, trains};
use oracle::gen::{alignment, run};
use oracle::rng::Rng;
use oracle::run::Batch;
use sage::database::PeptideIx;
use sage::peptide::Peptide;
use std::collections::BTreeSet;
use zorkamai::Alignment;

/// By the adapters, for a host that has the peptides' numbers a thousand apart.
fn by_adapters(batch: &Batch) -> Answer {
    let row = |row: &Row| Row { peptide: PeptideIx(row.peptide.0 * 1_000), ..*row };
    let rows: Vec<Row> = batch.rows.iter().map(row).collect();
    let table: Vec<(u32, Peptide)> =
        (0..).step_by(1_000).zip(batch.peptides.iter().cloned()).collect();
    adapted(&mut Rng::new(1), batch.files, &table, &rows)
}

/// Demands that the fitted numbers of two batches differ, whoever answers.
fn is_seen(before: &Batch, after: &Batch) {
    let marks = [without_number(before), without_number(after)];
    let ends = Ends::new([before.clone(), after.clone()], marks);
    let three = |batch: &Batch| three_calls(&mut Rng::new(2), batch, [0; 3]);
    assert_eq!(ends.agree(ends.rust.each_ref()), Err(Difference::Fitted));
    let ways: [&dyn Fn(&Batch) -> Answer; 3] = [&one_call, &three, &by_adapters];
    for way in ways {
        assert_eq!(ends.agree([&way(before), &way(after)]), Err(Difference::Fitted));
    }
}

/// The first row outside the training set.
fn outside(batch: &mut Batch) -> Option<&mut Row> {
    batch.rows.iter_mut().find(|row| !trains(row))
}

/// The peptide of the first training row.
fn trained(batch: &mut Batch) -> &mut Peptide {
    let row = batch.rows.iter().find(|row| trains(row)).expect("a training row");
    &mut batch.peptides[row.peptide.0 as usize]
}

/// Training rows at other times, rows that come to train, all of them or one, longest times that grow, and
/// other letters and another mass of a peptide that a training row has.
#[test]
fn an_edit_that_the_rule_forbids_is_seen() {
    let forbidden: [fn(&mut Batch); 6] = [
        |batch| batch.rows.iter_mut().filter(|row| trains(row)).for_each(|row| row.rt += 0.5),
        |batch| batch.rows.iter_mut().for_each(|row| (row.label, row.q) = (1, 0.0)),
        |batch| outside(batch).iter_mut().for_each(|row| (row.label, row.q) = (1, 0.0)),
        |batch| batch.rows.iter_mut().filter(|row| !trains(row)).for_each(|row| row.rt = 500.0),
        |batch| trained(batch).sequence.push(b'W'),
        |batch| trained(batch).monoisotopic += 1.0,
    ];
    let before = &stored()[0].before;
    for edit in forbidden {
        let mut after = before.clone();
        edit(&mut after);
        is_seen(before, &after);
    }
}

/// A count that moves alone: a training row gets a peptide with the letters and the mass of the one it had, and
/// all rows have one time.
#[test]
fn a_count_that_moves_alone_is_seen() {
    let mut before = run::batch(&mut Rng::new(5), 1, 2, 1);
    before.peptides[1] = before.peptides[0].clone();
    let row = Row { peptide: PeptideIx(0), label: 1, q: 0.0, rt: 10.0, ..before.rows[0] };
    before.rows = vec![row; 2];
    let mut after = before.clone();
    after.rows[1].peptide = PeptideIx(1);
    is_seen(&before, &after);
    let [before, after] = [rust(&before), rust(&after)];
    let moved: Vec<usize> =
        (0..before.fitted.len()).filter(|&i| before.fitted[i] != after.fitted[i]).collect();
    assert_eq!((moved, before.rows), (vec![3], after.rows));
}

/// Flags that move alone: of a peptide that has share 1 in file 0, and in file 1 share 0 or 2^-40, half of the sum
/// narrows to the same f32, which is both files' intercept and every row's aligned time.
#[test]
fn flags_that_move_alone_are_seen() {
    let mut before = run::batch(&mut Rng::new(6), 2, 1, 3);
    let training = Row { peptide: PeptideIx(0), label: 1, q: 0.0, ..before.rows[0] };
    before.rows[0] = Row { file: 0, rt: 10.0, ..training };
    before.rows[1] = Row { file: 1, rt: 0.0, ..training };
    before.rows[2] = Row { file: 1, rt: 1.0, label: -1, ..training };
    let mut after = before.clone();
    after.rows[1].rt = 2f32.powi(-40);
    is_seen(&before, &after);
    let [before, after] = [rust(&before), rust(&after)];
    let moved: Vec<usize> =
        (0..before.fitted.len()).filter(|&i| before.fitted[i] != after.fitted[i]).collect();
    assert_eq!((moved, before.rows), (vec![12, 13], after.rows));
}

/// Each flag of an end, turned round by hand; and a count, which the ends need not have in common, but is the Rust's.
#[test]
fn a_flag_or_a_count_that_is_wrong_is_seen() {
    let batch = &stored()[0].before;
    let marks = [(); 2].map(|_| all_fields(&batch.rows));
    let ends = Ends::new([batch.clone(), batch.clone()], marks);
    let Input { rows, table, .. } = Input::new(batch, vec![]);
    let own = zorkamai::run(&rows, batch.files, &table).expect("a run is accepted");
    let turn: [fn(&mut Alignment); 3] = [
        |a| a.max_rt_exact = !a.max_rt_exact,
        |a| a.slope_exact = !a.slope_exact,
        |a| a.intercept_exact = !a.intercept_exact,
    ];
    for turn in turn {
        let mut other = own.clone();
        turn(&mut other.aligned.records[0]);
        let answers = [&Answer::of(&own), &Answer::of(&other)];
        assert_eq!(ends.agree(answers), Err(Difference::Fitted));
        assert_eq!(ends.hold(answers), Err(Difference::Rust(1)));
    }
    let mut other = own.clone();
    other.mobility.iter_mut().for_each(|model| model.inexact ^= 1);
    let answers = [&Answer::of(&own), &Answer::of(&other)];
    assert!(ends.agree(answers).is_ok());
    assert_eq!(ends.hold(answers), Err(Difference::Rust(1)));
}

/// The records' patterns.
fn records(batch: &Batch) -> Vec<[u64; 7]> {
    align(batch.files, &batch.rows).patterns()
}

/// A batch of the alignment's families after two peptides that training rows have exchanged their numbers.
fn exchanged(r: &mut Rng) -> [Batch; 2] {
    let alignment::Rows { files, peptides, rows } = alignment::any(r);
    let before = Batch { files, peptides: run::batch(r, 1, peptides, 0).peptides, rows };
    let training = before.rows.iter().filter(|row| trains(row));
    let numbers: BTreeSet<u32> = training.map(|row| row.peptide.0).collect();
    let mut after = before.clone();
    if let (Some(&first), Some(&last)) = (numbers.first(), numbers.last()) {
        after.peptides.swap(first as usize, last as usize);
        for number in after.rows.iter_mut().map(|row| &mut row.peptide.0) {
            *number = match *number {
                n if n == first => last,
                n if n == last => first,
                n => n,
            };
        }
    }
    [before, after]
}

/// The alignment's sums go by rising number, so that another order of the peptides moves a record now and then.
#[test]
fn another_order_of_the_training_rows_peptides_is_seen() {
    let r = &mut Rng::new(0x04DE);
    let mut tries = (0..1_000).map(|_| exchanged(r));
    let moved = tries.find(|[before, after]| records(before) != records(after));
    let [before, after] = moved.expect("an order that shows");
    is_seen(&before, &after);
}

/// At one end, and at both, where the ends agree and the Rust does not.
#[test]
fn retention_on_other_times_is_seen() {
    let (batch, r) = (&stored()[0].before, &mut Rng::new(3));
    let marks = [(); 2].map(|_| all_fields(&batch.rows));
    let ends = Ends::new([batch.clone(), batch.clone()], marks);
    let times = |_: &[f32]| batch.rows.iter().map(|row| row.rt).collect();
    let other = with_times(r, batch, [0, 5, 100], times);
    let own = three_calls(r, batch, [5, 100, 0]);
    assert_eq!(ends.agree([&own, &other]), Err(Difference::Fitted));
    assert_eq!(ends.hold([&own, &other]), Err(Difference::Rust(1)));
    assert_eq!(ends.hold([&other, &other]), Err(Difference::Rust(0)));
    assert!(ends.agree([&other, &other]).is_ok() && ends.hold([&own, &own]).is_ok());
}

/// A result that moves alone: other letters of a peptide that only rows outside have. The rows are the same in
/// all seven fields, and the tables say different things of them.
#[test]
fn a_rows_result_that_moves_alone_is_seen() {
    let [mut before, _] = host_pairs().swap_remove(0).ends();
    let training: Vec<&Row> = before.rows.iter().filter(|row| trains(row)).collect();
    let is_free = |row: &&Row| training.iter().all(|other| other.peptide != row.peptide);
    let free = before.rows.iter().find(is_free).expect("a peptide without training rows");
    let number = free.peptide.0 as usize;
    before.peptides[number] = before.peptides[training[0].peptide.0 as usize].clone();
    let mut after = before.clone();
    after.peptides[number].sequence.extend(b"WWW");
    let alike = [without_number(&before), without_number(&after)];
    let by_number = [all_fields(&before.rows), all_fields(&after.rows)];
    let mut ends = Ends::new([before, after], by_number);
    let answers = [0, 1].map(|end| one_call(&ends.batches[end]));
    let differs = ends.agree(answers.each_ref());
    assert!(matches!(differs, Err(Difference::Row(_))), "{differs:?}");
    ends.marks = alike;
    assert!(ends.agree(answers.each_ref()).is_ok());
}
