//! The library against sage's own Rust, read sequentially: generated cases, every bit of every output,
//! the work room, the cells beyond, and the refusals of damaged calls.
//!
//!     cargo run --release --offline -- short              a fixed set of cases, under two minutes
//!     cargo run --release --offline -- long [SEED]        cases until it is stopped, or one differs
//!     cargo run --release --offline -- one FAMILY SEED    one case again
//!     cargo run --release --offline -- limits             inputs at the limits, once
//!
//! A case is made from a seed of its own, which a failure names. `.ci/staticlib zorkamai` makes the library,
//! `.ci/staticlib regression_export` its steps that add a sample; `$SAGE_SRC` says where sage's source is
//! (host/oracle/README.md).

mod adapters;
mod align;
mod calls;
mod cells;
mod cohort;
mod files;
mod forms;
mod limits;
mod models;
mod order;
mod psm;
mod runs;
mod solve;
mod sums;

use oracle::rng::Rng;
use std::process::ExitCode;
use std::time::{Duration, Instant};

/// Compares the case of a seed, and gives the number of calls made.
type Family = fn(&mut Rng) -> Result<usize, String>;

/// The families, and how many cases the short run has of each.
const FAMILIES: [(&str, Family, u64); 11] = [
    ("solve", solve::case, 100_000),
    ("align", align::case, 200_000),
    ("models", models::case, 3_000),
    ("run", runs::case, 2_000),
    ("adapters", adapters::case, 2_000),
    ("records", forms::records, 100_000),
    ("column", forms::column, 50_000),
    ("files", files::case, 400),
    ("sums", sums::case, 100_000),
    ("logs", sums::logs, 4_000),
    ("order", order::case, 100_000),
];

/// The seed of the short run, and of the long run unless one is given.
const SEED: u64 = 2026;

fn main() -> ExitCode {
    let words: Vec<String> = std::env::args().skip(1).collect();
    let words: Vec<&str> = words.iter().map(String::as_str).collect();
    let outcome = match words[..] {
        ["short"] => short(),
        ["long"] => long(SEED),
        ["long", seed] => seed.parse().map_err(|e| format!("{e}")).and_then(long),
        ["one", family, seed] => {
            seed.parse().map_err(|e| format!("{e}")).and_then(|s| one(family, s))
        }
        ["limits"] => limits::all(),
        _ => Err("usage: compare short | long [SEED] | one FAMILY SEED | limits".to_string()),
    };
    match outcome {
        Ok(line) => {
            println!("{line}");
            ExitCode::SUCCESS
        }
        Err(line) => {
            println!("compare: {line}");
            ExitCode::FAILURE
        }
    }
}

/// The seed of case `i` of a family.
fn case_seed(seed: u64, family: usize, i: u64) -> u64 {
    Rng::new(seed ^ (family as u64) << 56 ^ i << 8).bits()
}

/// One case; a failure says how to repeat it.
fn run_case(family: usize, seed: u64) -> Result<usize, String> {
    let (name, case, _) = FAMILIES[family];
    case(&mut Rng::new(seed)).map_err(|e| format!("{e}\nagain: compare one {name} {seed}"))
}

fn short() -> Result<String, String> {
    let start = Instant::now();
    let (mut cases, mut calls) = (0, 0);
    for (family, (name, _, count)) in FAMILIES.iter().enumerate() {
        let before = calls;
        for i in 0..*count {
            calls += run_case(family, case_seed(SEED, family, i))?;
        }
        cases += count;
        println!("{name}: {count} cases, {} calls", calls - before);
    }
    let seconds = start.elapsed().as_secs();
    Ok(format!("compare: {cases} cases, {calls} calls, every bit alike ({seconds} s)"))
}

fn long(seed: u64) -> Result<String, String> {
    let (start, mut told) = (Instant::now(), Instant::now());
    let (mut cases, mut calls) = (0u64, 0);
    for i in 0.. {
        for family in 0..FAMILIES.len() {
            calls += run_case(family, case_seed(seed, family, i))?;
            cases += 1;
        }
        if told.elapsed() > Duration::from_secs(10) {
            told = Instant::now();
            let seconds = start.elapsed().as_secs();
            println!("seed {seed}: {cases} cases, {calls} calls, every bit alike ({seconds} s)");
        }
    }
    unreachable!("the cases don't end")
}

fn one(name: &str, seed: u64) -> Result<String, String> {
    let family = FAMILIES.iter().position(|(family, _, _)| *family == name);
    let family = family.ok_or_else(|| format!("no family {name}"))?;
    let calls = run_case(family, seed)?;
    Ok(format!("{name} {seed}: {calls} calls, every bit alike"))
}
