//! Pairs of a host's rows, with the host's own peptide numbers: edits outside the training set bring peptides
//! that no row had, take a peptide's last row and give a row another peptide.

use crate::ends::{Count, HOSTS};
use crate::library::adapted;
use oracle::rng::Rng;

/// On the host's whole database, in the order of its numbers.
#[test]
fn the_rust_keeps_the_rule() {
    Count::rust(HOSTS.iter().map(|(_, ends)| ends)).at_least(1000, "hosts, the Rust");
}

/// The adapters, which pass only the peptides that rows have, give what the Rust gives on all of them.
#[test]
fn the_adapters_keep_the_rule() {
    let (mut count, mut r) = (Count::default(), Rng::new(0xADA7));
    for (pair, ends) in HOSTS.iter() {
        let rows = [&pair.before, &pair.after];
        let answers = [0, 1].map(|end| adapted(&mut r, pair.files, &pair.tables[end], rows[end]));
        count.add(ends, ends.hold(answers.each_ref()));
    }
    count.at_least(1000, "hosts, the adapters");
}
