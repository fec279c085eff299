//! Document 01's rule about edits outside the training set, run: the fitted numbers, and the results of every
//! row that both ends have, are the same to the bit. Over the Rust's answers, over those that the proved
//! program writes, and over the library's: by one call, by three calls with a workspace each, and by the
//! adapters.
//!
//! In `one_table` both ends have one peptide table, in `two_tables` each has its own, in `hosts` the rows have
//! a host's own peptide numbers.

mod answer;
#[allow(dead_code)] // A fit without predictions is called by `host/compare` and `host/bench`.
#[path = "../../../compare/src/calls.rs"]
mod calls;
mod conditions;
mod ends;
mod forbidden;
mod hosts;
mod library;
mod one_table;
#[path = "../../../compare/src/psm.rs"]
mod psm;
mod two_tables;
