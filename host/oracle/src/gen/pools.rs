//! Patterns at the edges of both float formats, and random ones.

use crate::rng::Rng;

/// An f64 pattern at an edge of the format, whatever it means.
pub fn edge64(rng: &mut Rng) -> u64 {
    let sign = rng.bits() << 63;
    sign | match rng.below(9) {
        0 => 0,
        1 => 1 + rng.bits() % 3,
        2 => 0x000F_FFFF_FFFF_FFFF - rng.bits() % 2,
        3 => 0x0010_0000_0000_0000 + rng.bits() % 2,
        4 => 0x7FEF_FFFF_FFFF_FFFF - rng.bits() % 2,
        5 => 0x7FF0_0000_0000_0000,
        6 => nan64(rng),
        7 => 0x3FF0_0000_0000_0000 + rng.bits() % 3 - 1,
        _ => rng.bits() >> 12,
    }
}

/// The pattern of an f64 NaN without its sign, quiet or signalling, with a payload.
pub fn nan64(rng: &mut Rng) -> u64 {
    0x7FF0_0000_0000_0000 | (1 + rng.bits() % 0x000F_FFFF_FFFF_FFFF)
}

/// An f32 pattern at an edge of the format, whatever it means.
pub fn edge32(rng: &mut Rng) -> u32 {
    let sign = (rng.bits() as u32) << 31;
    let few = rng.below(3) as u32;
    sign | match rng.below(9) {
        0 => 0,
        1 => 1 + few,
        2 => 0x007F_FFFF - few,
        3 => 0x0080_0000 + few,
        4 => 0x7F7F_FFFF - few,
        5 => 0x7F80_0000,
        6 => nan32(rng),
        7 => 0x3F80_0000 + few - 1,
        _ => rng.bits() as u32 >> 9,
    }
}

/// The pattern of an f32 NaN without its sign, quiet or signalling, with a payload.
pub fn nan32(rng: &mut Rng) -> u32 {
    0x7F80_0000 | (1 + rng.bits() as u32 % 0x007F_FFFF)
}

/// An f64 pattern: an edge, any bits, or a number of a plain size.
pub fn any64(rng: &mut Rng) -> u64 {
    match rng.below(3) {
        0 => edge64(rng),
        1 => rng.bits(),
        _ => (rng.signed() * 100.0).to_bits(),
    }
}

/// An f32 pattern: an edge, any bits, or a number of a plain size.
pub fn any32(rng: &mut Rng) -> u32 {
    match rng.below(3) {
        0 => edge32(rng),
        1 => rng.bits() as u32,
        _ => (rng.signed() as f32 * 100.0).to_bits(),
    }
}

/// For every exponent of f64 the least mantissa, the next and the largest, both signs by turns.
pub fn exponents64() -> impl Iterator<Item = u64> {
    (0..2048u64).flat_map(|e| {
        let cells = [0, 1, 0x000F_FFFF_FFFF_FFFF];
        cells.into_iter().enumerate().map(move |(i, m)| ((e + i as u64) % 2) << 63 | e << 52 | m)
    })
}

/// For every exponent of f32 and both signs the least mantissa, two next ones, a middle and the two largest.
pub fn exponents32() -> impl Iterator<Item = u32> {
    (0..512u32).flat_map(|e| [0, 1, 0x0040_0000, 0x007F_FFFE, 0x007F_FFFF].map(|m| e << 23 | m))
}
