//! Sage's Rust, read sequentially as in the oracle, against the library: one driver, the same inputs, both built
//! for release. Each time is the best of several runs, the two sides in turn, in the processor's time of this thread.
//! Where `all_cores` brings sage's Rust on all cores, that and the library run in turn again, by the clock on the wall.

#[path = "../../compare/src/calls.rs"]
mod calls;
mod clock;
mod input;
mod rust;
mod table;

pub use calls::Model;
use clock::Clock;
use input::{System, Work};
use oracle::run::Batch;
use Model::{Mobility, Retention};

/// The files of a batch, where its line names no other number.
const FILES: usize = 16;

/// The rows of a batch that is measured in every order.
const ORDERED: usize = 100_000;

/// A call on a batch.
#[derive(Copy, Clone)]
pub enum Phase {
    Align,
    Fit(Model),
    Predict(Model),
}

/// The phases of a batch, by the names that the tables have.
const PHASES: [(&str, Phase); 5] = [
    ("align", Phase::Align),
    ("retention fit", Phase::Fit(Retention)),
    ("retention predict", Phase::Predict(Retention)),
    ("mobility fit", Phase::Fit(Mobility)),
    ("mobility predict", Phase::Predict(Mobility)),
];

/// Who is called.
#[derive(Copy, Clone)]
enum Side {
    Rust,
    Library,
    AllCores,
}

/// What a batch's rows are sorted by.
#[derive(Copy, Clone, PartialEq)]
enum Order {
    Random,
    File,
    Peptide,
}

/// Calls a phase on one batch.
pub type Calls = Box<dyn FnMut(Phase)>;

/// Sage's Rust on all cores.
#[derive(Copy, Clone)]
pub struct AllCores {
    /// The threads it has.
    pub threads: usize,
    /// Solves a system with one right column, given left, right and the order.
    pub solve: fn(&[f64], &[f64], usize),
    /// Makes a batch's calls.
    pub batch: fn(&Batch) -> Calls,
}

/// The best seconds of the Rust and of the library: of one thread, and on the wall with the Rust on all cores.
struct Times {
    one_thread: (f64, f64),
    all_cores: Option<(f64, f64)>,
}

/// A phase on one input.
struct Line {
    phase: &'static str,
    order: Order,
    size: usize,
    times: Times,
}

/// Measures and prints all; with the argument `small` without the batch of a million rows.
pub fn run(all_cores: Option<AllCores>) {
    let small = std::env::args().nth(1).as_deref() == Some("small");
    let mut lines: Vec<Line> = [69, 100].map(|order| solve(order, all_cores)).into();
    eprintln!("4 files, 2300 files");
    lines.push(align("align, 4 files", 4, 1_000, 401, 100, all_cores));
    lines.push(align("align, 2300 files", 2_300, 100_000, 21, 1, all_cores));
    let sizes: &[usize] = if small { &[10_000, 100_000] } else { &[10_000, 100_000, 1_000_000] };
    for &rows in sizes {
        eprintln!("{rows} rows");
        lines.extend(batch(rows, Order::Random, all_cores));
    }
    for order in [Order::File, Order::Peptide] {
        eprintln!("{ORDERED} rows, sorted by {}", table::name(order));
        lines.extend(batch(ORDERED, order, all_cores));
    }
    table::print_processor(all_cores.map(|rust| (rust.threads, at_work(rust))));
    table::print(&lines);
    table::print_orders(&lines);
    table::print_visited(&Work::new(FILES, 10_000, Order::Random, None));
}

/// Times a call of each side, `n` times.
fn times(n: usize, all_cores: Option<AllCores>, mut call: impl FnMut(Side)) -> Times {
    let one_thread = best(n, Clock::Thread, Side::Rust, &mut call);
    let all_cores = all_cores.map(|_| best(n, Clock::Wall, Side::AllCores, &mut call));
    Times { one_thread, all_cores }
}

/// The best seconds of `n` runs of a side and of the library, in turn.
fn best(n: usize, clock: Clock, side: Side, call: &mut impl FnMut(Side)) -> (f64, f64) {
    let mut least = (f64::INFINITY, f64::INFINITY);
    for _ in 0..n {
        least.0 = least.0.min(clock.seconds_of(|| call(side)));
        least.1 = least.1.min(clock.seconds_of(|| call(Side::Library)));
    }
    least
}

fn solve(order: usize, all_cores: Option<AllCores>) -> Line {
    let mut system = System::new(order, all_cores);
    let times = times(300, all_cores, |side| system.call(side));
    Line { phase: "solve, order", order: Order::Random, size: order, times }
}

/// An alignment, timed `calls` at a time: one of a small batch is too short for the clock.
fn align(
    phase: &'static str,
    files: usize,
    rows: usize,
    runs: usize,
    calls: usize,
    all_cores: Option<AllCores>,
) -> Line {
    let mut work = Work::new(files, rows, Order::Random, all_cores);
    let all = times(runs, all_cores, |side| {
        (0..calls).for_each(|_| work.call(side, Phase::Align));
    });
    let each = |(rust, library)| (rust / calls as f64, library / calls as f64);
    let times = Times { one_thread: each(all.one_thread), all_cores: all.all_cores.map(each) };
    Line { phase, order: Order::Random, size: rows, times }
}

fn batch(rows: usize, order: Order, all_cores: Option<AllCores>) -> Vec<Line> {
    let mut work = Work::new(FILES, rows, order, all_cores);
    let runs = match (order, rows) {
        (Order::File | Order::Peptide, _) => 51,
        (_, 0..=10_000) => 401,
        (_, 10_001..=100_000) => 201,
        _ => 9,
    };
    let line = |(name, phase)| {
        let times = times(runs, all_cores, |side| work.call(side, phase));
        Line { phase: name, order, size: rows, times }
    };
    PHASES.into_iter().map(line).collect()
}

/// How many processors are at work in a mobility fit on all cores, the quickest of many short ones.
fn at_work(all_cores: AllCores) -> f64 {
    let mut work = Work::new(FILES, 10_000, Order::Random, Some(all_cores));
    let mut quickest = (f64::INFINITY, 0.0);
    for _ in 0..401 {
        let mut processors = 0.0;
        let mut fit = || work.call(Side::AllCores, Phase::Fit(Mobility));
        let wall = Clock::Wall.seconds_of(|| processors = Clock::Process.seconds_of(&mut fit));
        if wall < quickest.0 {
            quickest = (wall, processors);
        }
    }
    quickest.1 / quickest.0
}
