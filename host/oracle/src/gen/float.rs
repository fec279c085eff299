//! Records for the float leaves: at least 2,000 for each operation.
//!
//! Borders of every exponent, ties to even between neighbouring f32 (subnormal ones and the border of
//! overflow too), zeros, subnormals, infinities, NaNs with payloads and signs, and random patterns.

use super::pools::{any32, any64, edge32, edge64, exponents32, exponents64, nan32, nan64};
use crate::rng::Rng;
use crate::text::Output;

/// The least number of records for an operation.
const LEAST: usize = 2_100;

/// All records.
pub fn cases() -> String {
    let mut out = Output::default();
    let mut rng = Rng::new(0xF10A);
    unary(&mut out, 0x01, narrowing(&mut rng));
    unary(&mut out, 0x02, ceilings(&mut rng));
    unary(&mut out, 0x03, integers(&mut rng));
    unary(&mut out, 0x04, integers(&mut rng));
    unary(&mut out, 0x05, exponents64().chain(random64(&mut rng, 200)).collect());
    unary(&mut out, 0x06, exponents64().chain(random64(&mut rng, 200)).collect());
    unary(&mut out, 0x07, widened(&mut rng));
    minima(&mut out, &mut rng);
    clamps(&mut out, &mut rng);
    unary(&mut out, 0x0A, widened(&mut rng));
    unary(&mut out, 0x0B, random64(&mut rng, LEAST));
    unary(&mut out, 0x0C, widened(&mut rng));
    unary(&mut out, 0x0D, widened(&mut rng));
    unary(&mut out, 0x0E, held_or_not(&mut rng));
    out.text
}

/// Records with one argument.
fn unary(out: &mut Output, op: u8, args: Vec<u64>) {
    assert!(LEAST <= args.len(), "operation {op:02X} has {} records", args.len());
    args.into_iter().for_each(|a| out.record(op, a, 0, 0));
}

/// `n` f64 patterns, NaNs among them in number.
fn random64(rng: &mut Rng, n: usize) -> Vec<u64> {
    (0..n).map(|i| if i % 8 == 0 { nan64(rng) | rng.bits() << 63 } else { any64(rng) }).collect()
}

/// f32 patterns as arguments: every exponent's borders, edges and random ones.
fn widened(rng: &mut Rng) -> Vec<u64> {
    let random = (0..300).map(|i| if i % 3 == 0 { nan32(rng) | 1 << 31 } else { any32(rng) });
    let random: Vec<u32> = random.collect();
    exponents32().chain(random).map(u64::from).collect()
}

/// f64 patterns about the borders and the middles between neighbouring f32.
fn narrowing(rng: &mut Rng) -> Vec<u64> {
    let mut args: Vec<u64> = random64(rng, 500);
    for e in [0, 1, 2, 3, 800, 2044, 2045, 2046, 2047].into_iter().chain(870..=1152) {
        let sign = rng.bits() << 63;
        let odd = (rng.bits() & 0x000F_FFFF_C000_0000) | 0x2000_0000;
        let middles = [
            0x1000_0000,
            0x3000_0000,
            odd | 0x1000_0000,
            (odd | 0x1000_0000) - 1,
            (odd ^ 0x3000_0000) + 1,
        ];
        let borders = [0, 1, 0x000F_FFFF_FFFF_FFFF];
        args.extend(borders.iter().chain(&middles).map(|m| sign | e << 52 | m));
    }
    args.extend(around_ties(rng));
    args
}

/// Exact middles between neighbouring f32, normal and subnormal, and the f64 on both sides of each.
fn around_ties(rng: &mut Rng) -> Vec<u64> {
    let mut ties = vec![f32::MAX.to_bits(), 0, 1, 2, 0x007F_FFFE, 0x007F_FFFF, 0x0080_0000];
    ties.extend((0..150).map(|i| rng.bits() as u32 >> (9 + i % 23)));
    ties.extend((0..100).map(|_| rng.bits() as u32 % 0x7F80_0000));
    let middle = |bits: u32| {
        let low = f32::from_bits(bits) as f64;
        let high = match bits {
            0x7F7F_FFFF => 2f64.powi(128),
            _ => f32::from_bits(bits + 1) as f64,
        };
        (low + (high - low) / 2.0).to_bits()
    };
    let near = |m: u64| [m - 1, m, m + 1, m | 1 << 63, (m | 1 << 63) + 1];
    ties.into_iter().map(middle).flat_map(near).collect()
}

/// f64 patterns of `narrowing`, which an f32 seldom holds; numbers that an f32 holds, many of them subnormal, and the
/// f64 beside some of them; and NaNs.
fn held_or_not(rng: &mut Rng) -> Vec<u64> {
    let mut args = narrowing(rng);
    let mut held: Vec<u32> = exponents32().collect();
    held.extend((0..200).map(|i| (rng.bits() as u32) << 31 | rng.bits() as u32 >> (9 + i % 23)));
    held.extend((0..300).map(|_| any32(rng)));
    for x in held.into_iter().map(f32::from_bits).filter(|x| !x.is_nan()) {
        let bits = (x as f64).to_bits();
        args.push(bits);
        if rng.one_in(4) {
            args.push(bits ^ 1);
        }
    }
    args.extend((0..200).map(|_| nan64(rng) | rng.bits() << 63));
    args
}

/// f32 patterns to round up: every exponent, whole numbers and their neighbours, and 2^32.
fn ceilings(rng: &mut Rng) -> Vec<u64> {
    let mut args = widened(rng);
    let named = [
        9.2f32,
        -3.0,
        5E9,
        4294967296.0,
        4294967040.0,
        16777216.0,
        8388608.0,
        8388607.5,
        0.5,
        -0.5,
        1.0,
    ];
    let random: Vec<f32> = (0..200).map(|i| (rng.unit() * 2f64.powi(i % 34)) as f32).collect();
    for x in named.into_iter().chain(random) {
        let whole = x.floor().to_bits();
        let near = [x.to_bits(), whole, whole + 1, whole.saturating_sub(1)];
        args.extend(near.map(u64::from));
    }
    args
}

/// u32: powers of two and their neighbours, middles of 24-bit numbers, and random ones.
fn integers(rng: &mut Rng) -> Vec<u64> {
    let mut args: Vec<u32> = vec![0, u32::MAX, u32::MAX - 127, u32::MAX - 128, u32::MAX - 129];
    for k in 0..32 {
        let power = 1u32 << k;
        args.extend([power, power - 1, power.wrapping_add(1)]);
    }
    for k in 1..=8 {
        let half = 1u32 << (k - 1);
        for _ in 0..80 {
            let tie = ((1 << 23 | rng.bits() as u32 >> 9) << k) | half;
            args.extend([tie, tie - 1, tie + 1]);
        }
    }
    args.extend((0..300).map(|i| rng.bits() as u32 >> (i % 32)));
    args.into_iter().map(u64::from).collect()
}

/// Pairs for `min`: equal and unequal zeros, NaNs on either side, neighbours, random ones.
fn minima(out: &mut Output, rng: &mut Rng) {
    for i in 0..LEAST {
        let (x, y) = (any64(rng), any64(rng));
        let (x, y) = match i % 6 {
            0 => (edge64(rng), edge64(rng)),
            1 => (rng.bits() << 63, rng.bits() << 63),
            2 => (x, x ^ rng.bits() << 63),
            3 => (x, x ^ 1),
            4 => ((f32::from_bits(edge32(rng)) as f64).to_bits(), y),
            _ => (x, y),
        };
        out.record(0x08, x, y, 0);
    }
}

/// A number and two borders in order: 0 and 1, 0 and 2, zeros of both signs, and random ones.
fn clamps(out: &mut Output, rng: &mut Rng) {
    let borders =
        [(0.0f64, 1.0), (0.0, 2.0), (-0.0, 0.0), (0.0, -0.0), (f64::NEG_INFINITY, f64::INFINITY)];
    let mut left = LEAST;
    while left != 0 {
        let (a, b) = (f64::from_bits(any64(rng)), f64::from_bits(any64(rng)));
        let (lo, hi) = if left & 1 == 0 { rng.pick(&borders) } else { (a, b) };
        if lo <= hi {
            let near = [
                lo.to_bits() ^ 1,
                hi.to_bits() ^ 1,
                lo.to_bits() ^ 1 << 63,
                any64(rng),
                edge64(rng),
            ];
            out.record(0x09, rng.pick(&near), lo.to_bits(), hi.to_bits());
            left -= 1;
        }
    }
}
