//! Slices that a call writes, with more cells than it needs, and what they must hold afterwards.

use oracle::rng::Rng;
use oracle::text::{bits32, bits64};

/// A float, a count or a flag by its pattern.
pub trait Cell: Copy {
    /// The pattern as it is.
    fn pattern(self) -> u64;
    /// The pattern that must be written for it: the one NaN for any NaN.
    fn written(self) -> u64;
    /// Any float, count or flag.
    fn from_bits(bits: u64) -> Self;
}

impl Cell for f64 {
    fn pattern(self) -> u64 {
        self.to_bits()
    }
    fn written(self) -> u64 {
        bits64(self)
    }
    fn from_bits(bits: u64) -> f64 {
        f64::from_bits(bits)
    }
}

impl Cell for f32 {
    fn pattern(self) -> u64 {
        self.to_bits() as u64
    }
    fn written(self) -> u64 {
        bits32(self)
    }
    fn from_bits(bits: u64) -> f32 {
        f32::from_bits(bits as u32)
    }
}

impl Cell for u32 {
    fn pattern(self) -> u64 {
        self as u64
    }
    fn written(self) -> u64 {
        self as u64
    }
    fn from_bits(bits: u64) -> u32 {
        bits as u32
    }
}

impl Cell for bool {
    fn pattern(self) -> u64 {
        self as u64
    }
    fn written(self) -> u64 {
        self as u64
    }
    fn from_bits(bits: u64) -> bool {
        bits % 2 == 1
    }
}

/// A slice that a call may write: what it held, and what it holds.
pub struct Output<T> {
    name: &'static str,
    before: Vec<T>,
    pub now: Vec<T>,
    needed: usize,
}

impl<T: Cell> Output<T> {
    /// The needed cells and up to four more, of any content, NaNs too.
    pub fn new(r: &mut Rng, name: &'static str, needed: usize) -> Output<T> {
        let more = if r.one_in(2) { r.below(5) } else { 0 };
        let before: Vec<T> = (0..needed + more).map(|_| T::from_bits(r.bits())).collect();
        Output { name, now: before.clone(), before, needed }
    }

    /// Cuts it to one cell less than needed, and gives what it was.
    pub fn cut(&mut self) -> Output<T> {
        let before = self.before[..self.needed - 1].to_vec();
        let short = Output { name: self.name, now: before.clone(), before, needed: self.needed };
        std::mem::replace(self, short)
    }

    /// The content before the call again.
    pub fn reset(&mut self) {
        self.now.copy_from_slice(&self.before);
    }

    pub fn needed(&self) -> usize {
        self.needed
    }

    /// The needed cells hold these, any NaN as the one NaN, and the others what they held.
    pub fn holds(&self, want: &[T]) -> Result<(), String> {
        if want.len() != self.needed {
            return Err(format!("{}: {} cells, not {}", self.name, self.needed, want.len()));
        }
        let wanted = want.iter().map(|x| x.written());
        self.patterns(wanted.chain(self.before[self.needed..].iter().map(|x| x.pattern())))
    }

    /// The needed cells are +0.0, and the others what they were.
    pub fn zeroed(&self) -> Result<(), String> {
        let zeros = (0..self.needed).map(|_| 0);
        self.patterns(zeros.chain(self.before[self.needed..].iter().map(|x| x.pattern())))
    }

    /// Every cell is what it was.
    pub fn unchanged(&self) -> Result<(), String> {
        self.patterns(self.before.iter().map(|x| x.pattern()))
    }

    fn patterns(&self, want: impl Iterator<Item = u64>) -> Result<(), String> {
        for (i, (x, w)) in self.now.iter().zip(want).enumerate() {
            if x.pattern() != w {
                return Err(format!("{}[{i}] is {:X}, not {w:X}", self.name, x.pattern()));
            }
        }
        Ok(())
    }
}

/// That two things are equal, by name.
pub fn same<T: PartialEq + std::fmt::Debug>(what: &str, got: T, want: T) -> Result<(), String> {
    match got == want {
        true => Ok(()),
        false => Err(format!("{what} is {got:?}, not {want:?}")),
    }
}
