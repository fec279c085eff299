//! Sage's alignment, models, regression and elimination, compiled from its own files.
//!
//! The build script lays the files out and checks them. The name `std` is ../shims/std here, so that
//! sage's `HashMap` is ordered; `crate::database`, `crate::peptide` and `crate::scoring` are ours.
//! `host/bench/all_cores` compiles this file too, with the true `std`, rayon and dashmap.

pub mod database;
pub mod peptide;
pub mod scoring;

#[allow(dead_code, clippy::all)]
mod unchanged {
    include!(concat!(env!("OUT_DIR"), "/modules.rs"));
}
pub use unchanged::{mass, ml, COMPILED, SOURCE};

/// The slope and the intercept of each file, in f64 as they are before the narrowing, that alignments on this thread
/// gave since the last call.
pub fn take_lines() -> Vec<[f64; 2]> {
    log::take_lines()
}

/// The ridges tried without success on this thread since the last call.
pub fn take_failed_ridges() -> usize {
    log::take_debugs()
}
