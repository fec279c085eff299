//! The bench of `host/bench`, with sage's Rust on all cores: its own files over rayon and dashmap as Debian has them,
//! unchanged, and the standard library's `HashMap`.

#[path = "../../src/rust.rs"]
mod rust;

use bench::{AllCores, Calls, Model, Phase};
use oracle::run::Batch;
use rust::{solve, Rust};

fn main() {
    bench::run(Some(AllCores { threads: rayon::current_num_threads(), solve, batch }));
}

fn batch(batch: &Batch) -> Calls {
    let mut rust = Rust::new(batch);
    Box::new(move |phase| rust.call(phase))
}
