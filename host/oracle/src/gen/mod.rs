//! Generators of cases. Each has a fixed seed, so `vectors` writes the same files every time.

pub mod alignment;
pub mod edits;
pub mod float;
pub mod gauss;
pub mod leaves;
pub mod order;
pub mod pools;
pub mod program;
pub mod run;
pub mod tables;

/// The stored cases of a kind, as `crate::answers_to` reads them.
pub fn cases(kind: &str) -> Result<Vec<u8>, String> {
    if kind == "align_text" {
        return Ok(program::cases());
    }
    tokens(kind).map(String::into_bytes)
}

/// The stored cases of a kind that has tokens.
fn tokens(kind: &str) -> Result<String, String> {
    Ok(match kind {
        "float" => float::cases(),
        "mass" => leaves::mass(),
        "matrix" => leaves::matrix(),
        "feature" => leaves::feature(),
        "gauss" => gauss::cases(),
        "alignment" => alignment::cases(),
        "run" => run::cases(),
        _ => return Err(format!("no kind {kind}")),
    })
}

/// What the cases of a kind hold, in a few words.
pub fn tally(kind: &str, cases: &[u8], answers: &[u8]) -> String {
    let lines = |text: &[u8]| text.iter().filter(|&&b| b == b'\n').count();
    let (asked, answered) = (lines(cases), lines(answers));
    match kind {
        "align_text" => program::tally(),
        "gauss" => gauss::tally(),
        "run" => run::tally(),
        "alignment" => format!("{} alignments", alignment::count()),
        _ => format!("{asked} records, {answered} answers"),
    }
}
