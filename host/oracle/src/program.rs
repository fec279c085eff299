//! The align program as document 01 describes its text: its own reader and writer over sage's alignment.

use crate::alignment::{align, Row};
use crate::text::bits32;
use sage::database::PeptideIx;

/// The bytes that a text may have.
pub const BYTES: usize = 65_536;

/// The limits of files, peptides and rows.
const LIMITS: [usize; 3] = [16, 64, 256];

/// What a text says.
struct Input {
    files: u32,
    peptides: u32,
    rows: Vec<TextRow>,
}

/// A row as the text has it.
struct TextRow {
    file: u32,
    peptide: u32,
    label: i32,
    q: f32,
    rt: f32,
}

/// What is left of a text.
struct Text<'a>(&'a [u8]);

impl<'a> Text<'a> {
    /// What follows `key=` in the next line, which an LF closes.
    fn value(&mut self, key: &str) -> Option<&'a str> {
        let end = self.0.iter().position(|&b| b == b'\n')?;
        let (line, rest) = self.0.split_at(end);
        self.0 = &rest[1..];
        std::str::from_utf8(line).ok()?.strip_prefix(key)?.strip_prefix('=')
    }

    /// A line with a u32.
    fn number(&mut self, key: &str) -> Option<u32> {
        let digits = self.value(key)?;
        decimal(digits).then(|| digits.parse().ok())?
    }

    /// A line with an i32; `-0` is none.
    fn signed(&mut self, key: &str) -> Option<i32> {
        let text = self.value(key)?;
        let digits = text.strip_prefix('-').unwrap_or(text);
        (decimal(digits) && text != "-0").then(|| text.parse().ok())?
    }

    /// A line with an f32's pattern.
    fn float(&mut self, key: &str) -> Option<f32> {
        let digits = self.value(key)?;
        let hex = |b: u8| b.is_ascii_digit() || (b'A'..=b'F').contains(&b);
        let well = digits.len() == 8 && digits.bytes().all(hex);
        well.then(|| u32::from_str_radix(digits, 16).ok().map(f32::from_bits))?
    }

    /// The five lines of a row.
    fn row(&mut self) -> Option<TextRow> {
        Some(TextRow {
            file: self.number("file")?,
            peptide: self.number("peptide")?,
            label: self.signed("label")?,
            q: self.float("q")?,
            rt: self.float("rt")?,
        })
    }
}

/// Whether digits have no needless zero; signs are none.
fn decimal(digits: &str) -> bool {
    let needless = 1 < digits.len() && digits.starts_with('0');
    !digits.is_empty() && !needless && digits.bytes().all(|b| b.is_ascii_digit())
}

/// Reads a text, if it is well formed.
fn read(bytes: &[u8]) -> Option<Input> {
    if BYTES < bytes.len() {
        return None;
    }
    let mut text = Text(bytes);
    let mut input =
        Input { files: text.number("files")?, peptides: text.number("peptides")?, rows: vec![] };
    while !text.0.is_empty() {
        input.rows.push(text.row()?);
    }
    Some(input)
}

/// The first check after 10 that fails.
fn refusal(input: &Input) -> Option<u8> {
    let counts = [input.files as usize, input.peptides as usize, input.rows.len()];
    if input.files == 0 || (0..3).any(|i| LIMITS[i] < counts[i]) {
        return Some(2);
    }
    if input.rows.iter().any(|row| input.files <= row.file) {
        return Some(4);
    }
    input.rows.iter().any(|row| input.peptides <= row.peptide).then_some(5)
}

/// The text of an accepted input's answer.
fn accepted(input: &Input) -> String {
    let row = |r: &TextRow| {
        let row = Row::new(r.file as usize, PeptideIx(r.peptide));
        Row { label: r.label, q: r.q, rt: r.rt, ..row }
    };
    let rows: Vec<Row> = input.rows.iter().map(row).collect();
    let aligned = align(input.files as usize, &rows);
    let line = |key: &str, x: f32| format!("{key}={:08X}\n", bits32(x));
    let mut out = "status=0\n".to_string();
    for (i, (a, used)) in aligned.records.iter().zip(&aligned.used).enumerate() {
        out += &format!("file={i}\n");
        out += &line("max", a.max_rt);
        out += &line("slope", a.slope);
        out += &line("intercept", a.intercept);
        out += &format!("used={used}\n");
    }
    aligned.features.iter().for_each(|f| out += &line("aligned", f.aligned_rt));
    out
}

/// What the program writes for a text.
pub fn program(bytes: &[u8]) -> String {
    let Some(input) = read(bytes) else {
        return "status=10\n".to_string();
    };
    match refusal(&input) {
        Some(status) => format!("status={status}\n"),
        None => accepted(&input),
    }
}

/// A text behind a line with its length, as 16 hex digits.
pub fn block(text: &[u8]) -> Vec<u8> {
    [format!("{:016X}\n", text.len()).as_bytes(), text].concat()
}

/// The number in the line of 16 hex digits that a run of blocks begins with, and what follows it.
fn token(bytes: &[u8]) -> Result<(usize, &[u8]), String> {
    let wrong = || "not a line of 16 hex digits".to_string();
    let (line, rest) = bytes.split_at_checked(17).ok_or_else(wrong)?;
    let digits = std::str::from_utf8(line).map_err(|e| e.to_string())?;
    let digits = digits.strip_suffix('\n').ok_or_else(wrong)?;
    usize::from_str_radix(digits, 16).map(|n| (n, rest)).map_err(|e| e.to_string())
}

/// The answers to texts: the number of them, then a block for each; of an answer a block.
pub fn answers(cases: &[u8]) -> Result<Vec<u8>, String> {
    let (n, mut rest) = token(cases)?;
    let mut out = vec![];
    for _ in 0..n {
        let (length, after) = token(rest)?;
        let (text, after) = after.split_at_checked(length).ok_or("a text cut short")?;
        out.extend(block(program(text).as_bytes()));
        rest = after;
    }
    match rest.is_empty() {
        true => Ok(out),
        false => Err("text after the last case".to_string()),
    }
}
