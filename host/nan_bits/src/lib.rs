//! Compiled functions that return a float, those of the crate `float` and `regression::predict`, and
//! NaNs of many payloads and both signs to try them on. To the proofs there is one NaN and it has no
//! bits, so what the bits of a result are only a test of the compiled code can tell. The flag of the
//! narrowing is tried on them too. `.ci/staticlib float_export` makes the library, `cargo test --offline`
//! tests it.

// Safe where it says so: such a function takes numbers by value, has no `requires` and touches no memory.
unsafe extern "C" {
    #[link_name = "zk_canonical64"]
    pub safe fn canonical64(x: f64) -> f64;
    #[link_name = "zk_canonical32"]
    pub safe fn canonical32(x: f32) -> f32;
    #[link_name = "zk_narrow"]
    pub safe fn narrow(x: f64) -> f32;
    /// Whether the narrowed number equals `x`.
    #[link_name = "zk_narrow_exact"]
    pub safe fn narrow_exact(x: f64) -> bool;
    #[link_name = "zk_widen"]
    pub safe fn widen(x: f32) -> f64;
    #[link_name = "zk_abs32"]
    pub safe fn abs32(x: f32) -> f32;
    #[link_name = "zk_min64"]
    pub safe fn min64(a: f64, b: f64) -> f64;
    #[link_name = "zk_clamp64"]
    pub safe fn clamp64(x: f64, lo: f64, hi: f64) -> f64;
    #[link_name = "zk_from_bits64"]
    pub safe fn from_bits64(b: u64) -> f64;
    #[link_name = "zk_from_bits32"]
    pub safe fn from_bits32(b: u32) -> f32;
    // A slice is passed as a pointer and a length.
    fn zk_predict(row: *const f64, rows: usize, beta: *const f64, betas: usize) -> f64;
}

/// The sum of `row[k] * beta[k]`, as far as both reach.
pub fn predict(row: &[f64], beta: &[f64]) -> f64 {
    // SAFETY: the pointers and lengths are those of live slices, which are only read.
    unsafe { zk_predict(row.as_ptr(), row.len(), beta.as_ptr(), beta.len()) }
}

/// The pattern that an f64 NaN is always written as.
pub const NAN64: u64 = 0x7FF8_0000_0000_0000;
/// The pattern that an f32 NaN is always written as.
pub const NAN32: u32 = 0x7FC0_0000;

/// xorshift64: the same numbers in every run.
pub fn numbers(count: usize) -> impl Iterator<Item = u64> {
    let mut state: u64 = 0x9E37_79B9_7F4A_7C15;
    (0..count).map(move |_| {
        state ^= state << 13;
        state ^= state >> 7;
        state ^= state << 17;
        state
    })
}

/// NaN patterns of f64, quiet and signalling, of both signs: each single digit, all digits, and others.
pub fn nans64() -> Vec<u64> {
    let all = (1u64 << 52) - 1;
    let mut digits: Vec<u64> = (0..52).map(|k| 1 << k).collect();
    digits.push(all);
    digits.extend(numbers(5000).map(|n| n & all).filter(|d| *d != 0));
    digits.iter().flat_map(|d| [0x7FF0_0000_0000_0000 | d, 0xFFF0_0000_0000_0000 | d]).collect()
}

/// NaN patterns of f32, as [`nans64`].
pub fn nans32() -> Vec<u32> {
    let all = (1u32 << 23) - 1;
    let mut digits: Vec<u32> = (0..23).map(|k| 1 << k).collect();
    digits.push(all);
    digits.extend(numbers(5000).map(|n| (n >> 32) as u32 & all).filter(|d| *d != 0));
    digits.iter().flat_map(|d| [0x7F80_0000 | d, 0xFF80_0000 | d]).collect()
}

/// Patterns of f64 that are no NaN's: zeros, infinities, the ends of each range, and others.
pub fn values64() -> Vec<u64> {
    let mut patterns = vec![0, 1, 0x000F_FFFF_FFFF_FFFF, 0x0010_0000_0000_0000];
    patterns.extend([0x3FF0_0000_0000_0000, 0x7FEF_FFFF_FFFF_FFFF, 0x7FF0_0000_0000_0000]);
    patterns.extend(numbers(5000).map(|n| n >> 1).filter(|b| !f64::from_bits(*b).is_nan()));
    patterns.iter().flat_map(|b| [*b, *b | 1 << 63]).collect()
}

/// Patterns of f32 that are no NaN's, as [`values64`].
pub fn values32() -> Vec<u32> {
    let mut patterns = vec![0, 1, 0x007F_FFFF, 0x0080_0000, 0x3F80_0000, 0x7F7F_FFFF, 0x7F80_0000];
    patterns
        .extend(numbers(5000).map(|n| (n >> 33) as u32).filter(|b| !f32::from_bits(*b).is_nan()));
    patterns.iter().flat_map(|b| [*b, *b | 1 << 31]).collect()
}
