//! Answers the cases on standard input: `oracle KIND < cases`. README.md gives the formats.

use std::io::{Read, Write};
use std::process::ExitCode;

fn main() -> ExitCode {
    let Some(kind) = std::env::args().nth(1) else {
        eprintln!("usage: oracle {}|log < cases", oracle::KINDS.join("|"));
        return ExitCode::from(2);
    };
    let mut cases = vec![];
    let read = std::io::stdin().read_to_end(&mut cases).map_err(|e| e.to_string());
    let answers = read.and_then(|_| oracle::answers_to(&kind, &cases));
    match answers.and_then(|a| std::io::stdout().write_all(&a).map_err(|e| e.to_string())) {
        Ok(()) => ExitCode::SUCCESS,
        Err(e) => {
            eprintln!("oracle: {e}");
            ExitCode::from(2)
        }
    }
}
