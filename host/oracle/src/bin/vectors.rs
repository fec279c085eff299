//! Makes the stored answers that the `*_vectors` programs replay.
//!
//! `vectors DIR` writes DIR/NAME_vectors/stdin (the cases, made by the generators of this package with
//! fixed seeds) and DIR/NAME_vectors/stdout (what sage's own Rust answers to them) for every kind NAME
//! that has such a folder, or for the kinds named after DIR, folder or not. With `--check` it writes
//! nothing, compares with the stored files and fails on a difference.

use oracle::{answers_to, gen, KINDS};
use std::fs;
use std::path::{Path, PathBuf};
use std::process::ExitCode;

fn main() -> ExitCode {
    match work(std::env::args().skip(1).collect()) {
        Ok(()) => ExitCode::SUCCESS,
        Err(e) => {
            eprintln!("vectors: {e}");
            ExitCode::FAILURE
        }
    }
}

/// Makes or checks each kind asked for.
fn work(mut args: Vec<String>) -> Result<(), String> {
    let check = args.iter().any(|a| a == "--check");
    args.retain(|a| a != "--check");
    let Some((dir, names)) = args.split_first() else {
        return Err(format!("usage: vectors DIR [--check] [{}]", KINDS.join("|")));
    };
    for kind in kinds(dir, names)? {
        let cases = gen::cases(kind)?;
        let answers = answers_to(kind, &cases)?;
        eprintln!("{kind}: {}", gen::tally(kind, &cases, &answers));
        let folder = folder(dir, kind);
        store(&folder, "stdin", &cases, check)?;
        store(&folder, "stdout", &answers, check)?;
    }
    Ok(())
}

/// The folder of a kind.
fn folder(dir: &str, kind: &str) -> PathBuf {
    Path::new(dir).join(format!("{kind}_vectors"))
}

/// The kinds named, or else those that have a folder; that there is none is a mistake.
fn kinds<'a>(dir: &str, names: &'a [String]) -> Result<Vec<&'a str>, String> {
    if !names.is_empty() {
        return Ok(names.iter().map(String::as_str).collect());
    }
    let (there, not): (Vec<&str>, Vec<&str>) =
        KINDS.into_iter().partition(|kind| folder(dir, kind).is_dir());
    not.iter().for_each(|kind| eprintln!("{kind}: no folder {}", folder(dir, kind).display()));
    match there.is_empty() {
        true => Err("nothing to make".to_string()),
        false => Ok(there),
    }
}

/// Writes a file, or compares it with what is stored.
fn store(folder: &Path, name: &str, text: &[u8], check: bool) -> Result<(), String> {
    let path = folder.join(name);
    let fail = |e: std::io::Error| format!("{}: {e}", path.display());
    if !check {
        fs::create_dir_all(folder).map_err(fail)?;
        return fs::write(&path, text).map_err(fail);
    }
    match fs::read(&path).map_err(fail)? == text {
        true => Ok(()),
        false => Err(format!("{} differs from what is made now", path.display())),
    }
}
