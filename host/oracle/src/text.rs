//! Cases and answers as text: tokens of upper-case hex digits, floats as bit patterns, one NaN.

use std::fmt::Write;

/// The pattern of an f64, 7FF8000000000000 for every NaN.
pub fn bits64(x: f64) -> u64 {
    match x.is_nan() {
        true => 0x7FF8_0000_0000_0000,
        false => x.to_bits(),
    }
}

/// The pattern of an f32, zero-extended, 7FC00000 for every NaN.
pub fn bits32(x: f32) -> u64 {
    match x.is_nan() {
        true => 0x7FC0_0000,
        false => x.to_bits() as u64,
    }
}

/// An i32 as its 32 bits, zero-extended.
pub fn bits_i32(x: i32) -> u64 {
    x as u32 as u64
}

/// Tokens of at most 16 hex digits between white space; `#` opens a comment to the line's end.
pub struct Tokens<'a> {
    rest: &'a str,
}

impl<'a> Tokens<'a> {
    /// All tokens of a text.
    pub fn new(text: &'a str) -> Self {
        let mut tokens = Tokens { rest: text };
        tokens.skip();
        tokens
    }

    /// Steps over white space and comments.
    fn skip(&mut self) {
        self.rest = self.rest.trim_start();
        while self.rest.starts_with('#') {
            let end = self.rest.find('\n').unwrap_or(self.rest.len());
            self.rest = self.rest[end..].trim_start();
        }
    }

    /// Whether no token is left.
    pub fn is_empty(&self) -> bool {
        self.rest.is_empty()
    }

    /// The next token's number.
    pub fn bits(&mut self) -> Result<u64, String> {
        let end = self.rest.find(|c: char| c.is_whitespace() || c == '#');
        let (token, rest) = self.rest.split_at(end.unwrap_or(self.rest.len()));
        let hex = |b: u8| b.is_ascii_digit() || (b'A'..=b'F').contains(&b);
        if token.is_empty() || 16 < token.len() || !token.bytes().all(hex) {
            return Err(format!("not 1 to 16 upper-case hex digits: {token:?}"));
        }
        self.rest = rest;
        self.skip();
        u64::from_str_radix(token, 16).map_err(|e| e.to_string())
    }

    /// The next token as a count or an index.
    pub fn number(&mut self) -> Result<usize, String> {
        self.at_most(u32::MAX as usize)
    }

    /// The next token, refused when above `limit`.
    pub fn at_most(&mut self, limit: usize) -> Result<usize, String> {
        match self.bits()? {
            n if n <= limit as u64 => Ok(n as usize),
            n => Err(format!("{n} is above {limit}")),
        }
    }

    /// The next token as an f64's pattern.
    pub fn f64(&mut self) -> Result<f64, String> {
        self.bits().map(f64::from_bits)
    }

    /// The next token as an f32's pattern.
    pub fn f32(&mut self) -> Result<f32, String> {
        self.number().map(|n| f32::from_bits(n as u32))
    }

    /// The next token as an i32's 32 bits.
    pub fn i32(&mut self) -> Result<i32, String> {
        self.number().map(|n| n as u32 as i32)
    }

    /// The next `n` tokens, each read by `read`.
    pub fn column<T>(
        &mut self,
        n: usize,
        mut read: impl FnMut(&mut Self) -> Result<T, String>,
    ) -> Result<Vec<T>, String> {
        (0..n).map(|_| read(self)).collect()
    }
}

/// Tokens of 16 upper-case hex digits, one a line.
#[derive(Default)]
pub struct Output {
    pub text: String,
}

impl Output {
    /// A number.
    pub fn bits(&mut self, x: u64) {
        writeln!(self.text, "{x:016X}").expect("a String takes all text");
    }

    /// A count or an index.
    pub fn number(&mut self, x: usize) {
        self.bits(x as u64);
    }

    /// An f64's pattern.
    pub fn f64(&mut self, x: f64) {
        self.bits(bits64(x));
    }

    /// An f32's pattern.
    pub fn f32(&mut self, x: f32) {
        self.bits(bits32(x));
    }

    /// A leaf's record: an operation and three arguments on one line.
    pub fn record(&mut self, op: u8, a: u64, b: u64, c: u64) {
        writeln!(self.text, "{op:02X} {a:016X} {b:016X} {c:016X}")
            .expect("a String takes all text");
    }
}
