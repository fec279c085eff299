//! Pairs with a peptide table for each end: peptides that no training row has are put in, taken out, moved and
//! altered. A row is the same at both ends if it is but for its label, its q and its peptide's number.

use crate::ends::{Count, TWO_TABLES};
use crate::library::{both_by_three_calls, one_call};
use oracle::rng::Rng;

#[test]
fn the_rust_keeps_the_rule() {
    Count::rust(TWO_TABLES.iter()).at_least(1000, "two tables, the Rust");
}

#[test]
fn one_call_keeps_the_rule() {
    let count = Count::held(TWO_TABLES.iter(), |ends| ends.batches.each_ref().map(one_call));
    count.at_least(1000, "two tables, one call");
}

#[test]
fn three_calls_keep_the_rule() {
    let r = &mut Rng::new(0x3CA2);
    let count = Count::held(TWO_TABLES.iter(), |ends| both_by_three_calls(r, &ends.batches));
    count.at_least(1000, "two tables, three calls");
}
