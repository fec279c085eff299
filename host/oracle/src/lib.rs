//! The oracle: sage's own Rust, read sequentially, answers cases given as text.
//!
//! `answers_to` is what both programs use: `oracle` answers standard input, `vectors` makes cases by the
//! generators in `gen`, answers them, and stores both.

pub mod alignment;
pub mod gen;
pub mod leaf;
pub mod narrow;
pub mod program;
pub mod rng;
pub mod run;
pub mod solve;
pub mod text;

/// The kinds of cases, in the order in which the crates stand on each other.
pub const KINDS: [&str; 8] =
    ["float", "mass", "matrix", "feature", "gauss", "alignment", "align_text", "run"];

/// The answers to cases of one kind, or what is wrong with them: texts of the align program, or tokens.
pub fn answers_to(kind: &str, cases: &[u8]) -> Result<Vec<u8>, String> {
    if kind == "align_text" {
        return program::answers(cases);
    }
    let cases = std::str::from_utf8(cases).map_err(|e| e.to_string())?;
    answers(kind, cases).map(String::into_bytes)
}

/// The answers to a text of cases of one kind that has tokens, or what is wrong with the text.
pub fn answers(kind: &str, cases: &str) -> Result<String, String> {
    let mut input = text::Tokens::new(cases);
    let mut out = text::Output::default();
    match kind {
        "float" => leaf::answer(&mut input, &mut out, leaf::float)?,
        "mass" => leaf::answer(&mut input, &mut out, leaf::mass)?,
        "matrix" => leaf::answer(&mut input, &mut out, leaf::matrix)?,
        "feature" => leaf::answer(&mut input, &mut out, leaf::feature)?,
        "log" => run::answer_logs(&mut input, &mut out)?,
        "gauss" => each_case(&mut input, |input| solve::answer(input, &mut out))?,
        "alignment" => each_case(&mut input, |input| alignment::answer(input, &mut out))?,
        "run" => each_case(&mut input, |input| run::answer(input, &mut out))?,
        _ => return Err(format!("no kind {kind}")),
    }
    Ok(out.text)
}

/// Reads the number of cases, then each case, and demands that nothing follows.
fn each_case(
    input: &mut text::Tokens,
    mut case: impl FnMut(&mut text::Tokens) -> Result<(), String>,
) -> Result<(), String> {
    for i in 0..input.number()? {
        case(input).map_err(|e| format!("case {i}: {e}"))?;
    }
    match input.is_empty() {
        true => Ok(()),
        false => Err("text after the last case".to_string()),
    }
}
