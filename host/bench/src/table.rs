//! The tables.

use crate::input::Work;
use crate::Model::{Mobility, Retention};
use crate::{Line, Order, ORDERED, PHASES};

/// The phases on rows in random order.
pub fn print(lines: &[Line]) {
    let mut by_phase: Vec<&Line> = lines.iter().filter(|l| l.order == Order::Random).collect();
    let first = |phase: &str| lines.iter().position(|l| l.phase == phase);
    by_phase.sort_by_key(|l| (first(l.phase), l.size));
    print_lines("Rows or order", &by_phase, |l| l.size.to_string());
}

/// The phases on one batch, its rows in each order.
pub fn print_orders(lines: &[Line]) {
    let of = |name| move |l: &&Line| l.phase == name && l.size == ORDERED;
    let by_phase: Vec<&Line> =
        PHASES.iter().flat_map(|(name, _)| lines.iter().filter(of(*name))).collect();
    println!("\n{ORDERED} rows:\n");
    print_lines("Sorted by", &by_phase, |l| name(l.order).to_string());
}

/// What the sums of a fit visit of a row.
pub fn print_visited(work: &Work) {
    println!("\n| Model | Columns | Not zero, a row | Pairs of columns | Visited, a row |");
    println!("|---|---:|---:|---:|---:|");
    for (name, model, d) in [("retention", Retention, 69), ("mobility", Mobility, 100)] {
        let (columns, pairs) = work.visited(model);
        println!("| {name} | {d} | {columns:.1} | {} | {pairs:.1} |", d * (d + 1) / 2);
    }
}

/// The processor's name, as Linux tells it, and its cores. `all_cores` says how many threads the Rust has on all of
/// them, and how many processors these keep at work.
pub fn print_processor(all_cores: Option<(usize, f64)>) {
    let info = std::fs::read_to_string("/proc/cpuinfo").unwrap_or_default();
    let name = info.lines().find_map(|l| l.strip_prefix("model name")?.split_once(':'));
    let name = name.map_or("unknown processor", |(_, name)| name.trim());
    let cores = std::thread::available_parallelism().map_or(0, |n| n.get());
    println!("{name}, {cores} cores, one used.");
    if let Some((threads, processors)) = all_cores {
        print!("The Rust on all cores has {threads} threads; ");
        println!("in its quickest mobility fit {processors:.2} processors were at work.");
    }
    println!();
}

/// What an order is called.
pub fn name(order: Order) -> &'static str {
    match order {
        Order::Random => "nothing",
        Order::File => "file",
        Order::Peptide => "peptide",
    }
}

/// Prints lines, with a second column of this title and these cells.
fn print_lines(title: &str, lines: &[&Line], cell: fn(&Line) -> String) {
    let (titles, ruler) = match lines.iter().any(|l| l.times.all_cores.is_some()) {
        true => (" Rust, all cores, ms | Ratio, wall clock |", "---:|---:|"),
        false => ("", ""),
    };
    println!("| Phase | {title} | Rust, ms | Library, ms | Ratio | Library, µs a row |{titles}");
    println!("|---|---:|---:|---:|---:|---:|{ruler}");
    for l in lines {
        println!("| {} | {} | {}{}", l.phase, cell(l), one_thread(l), all_cores(l));
    }
}

/// The cells of one thread.
fn one_thread(l: &Line) -> String {
    let (rust, library) = l.times.one_thread;
    let per_row = match l.phase.starts_with("solve") {
        true => String::new(),
        false => format!("{:.3}", library / l.size as f64 * 1E6),
    };
    format!("{} | {} | {:.2} | {per_row} |", ms(rust), ms(library), library / rust)
}

/// The cells of all cores, where they were measured.
fn all_cores(l: &Line) -> String {
    let cells = |(rust, library)| format!(" {} | {:.2} |", ms(rust), library / rust);
    l.times.all_cores.map_or(String::new(), cells)
}

/// Seconds as milliseconds, with two more digits below a tenth of one.
fn ms(seconds: f64) -> String {
    let digits = if seconds < 1E-4 { 5 } else { 3 };
    format!("{:.digits$}", seconds * 1E3)
}
