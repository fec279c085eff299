//! Sage's Rust against the library, as lib.rs says.
//!
//!     cargo run --release --offline             all batches; the tables that docs/BENCHMARKS.md holds
//!     cargo run --release --offline -- small    without the batch of a million rows
//!
//! `.ci/staticlib zorkamai` makes the library; `$SAGE_SRC` says where sage's source is (host/oracle/README.md).
//! Where Debian's packages of rayon and dashmap are installed, this builds and runs `all_cores`, the same bench with
//! sage's Rust on all cores beside it; a crate that names them would not build where they are not.

use std::process::{exit, Command, ExitStatus};
use std::{env, fs, io};

/// Where Debian's packages put a crate's source, in a folder with its version.
const REGISTRY: &str = "/usr/share/cargo/registry";

/// The packages, and how the folders of their crates begin.
const PACKAGES: [(&str, &str); 2] =
    [("librust-rayon-dev", "rayon-1."), ("librust-dashmap-dev", "dashmap-5.")];

const ALL_CORES: &str = concat!(env!("CARGO_MANIFEST_DIR"), "/all_cores");

fn main() {
    let left_out = match missing() {
        missing if !missing.is_empty() => {
            format!("these packages of Debian's are not installed: {}", missing.join(", "))
        }
        _ if built() => exit(cargo("run").ok().and_then(|status| status.code()).unwrap_or(1)),
        _ => "host/bench/all_cores does not build, as said above".to_string(),
    };
    println!("The column 'Rust, all cores' is left out: {left_out}.\n");
    bench::run(None);
}

/// The packages that are not installed.
fn missing() -> Vec<&'static str> {
    let folders = fs::read_dir(REGISTRY).into_iter().flatten().flatten();
    let names: Vec<String> =
        folders.map(|folder| folder.file_name().to_string_lossy().into_owned()).collect();
    let here = |start: &str| names.iter().any(|name| name.starts_with(start));
    PACKAGES.iter().filter(|(_, start)| !here(start)).map(|(package, _)| *package).collect()
}

/// Whether `all_cores` builds; of the versions that are installed now, not of those that an earlier build found.
fn built() -> bool {
    _ = fs::remove_file(format!("{ALL_CORES}/Cargo.lock"));
    cargo("build").is_ok_and(|status| status.success())
}

/// Runs cargo on `all_cores`, with this program's arguments if it is to run it.
fn cargo(verb: &str) -> io::Result<ExitStatus> {
    let mut cargo = Command::new(env::var_os("CARGO").unwrap_or("cargo".into()));
    cargo.args([verb, "--release", "--offline"]).current_dir(ALL_CORES);
    if verb == "run" {
        cargo.arg("--quiet").arg("--").args(env::args_os().skip(1));
    }
    cargo.status()
}
