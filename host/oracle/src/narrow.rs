//! Whether narrowing an f64 to f32 loses something.

use crate::text::bits32;

/// Whether an f32 is the same number as `x`; a NaN is none.
pub fn exact(x: f64) -> bool {
    (x as f32) as f64 == x
}

/// The same of an f64 that sage narrowed: the cast must have the bits of what sage wrote.
pub fn written_exact(x: f64, written: f32) -> bool {
    assert_eq!(bits32(x as f32), bits32(written), "{x:?} is not what sage narrowed to {written:?}");
    exact(x)
}
