//! A NaN of any payload or sign comes out of the compiled code as 7FF8000000000000 or 7FC00000 and is not
//! exact, and a number comes out as it went in.
use nan_bits::*;

fn is64(what: &str, from: u64, x: f64, want: u64) {
    assert_eq!(x.to_bits(), want, "{what} of {from:016X} is {:016X}", x.to_bits());
}

fn is32(what: &str, from: u64, x: f32, want: u32) {
    assert_eq!(x.to_bits(), want, "{what} of {from:016X} is {:08X}", x.to_bits());
}

#[test]
fn the_inputs_are_nans_of_many_bits() {
    let wide = nans64();
    let narrow = nans32();
    assert!(wide.len() > 10_000 && wide.iter().all(|b| f64::from_bits(*b).is_nan()));
    assert!(narrow.len() > 10_000 && narrow.iter().all(|b| f32::from_bits(*b).is_nan()));
    assert!(wide.iter().filter(|b| **b != NAN64).count() > 10_000);
    assert!(narrow.iter().filter(|b| **b != NAN32).count() > 10_000);
}

#[test]
fn f64_nans() {
    let others = nans64();
    for (i, b) in nans64().into_iter().enumerate() {
        let x = f64::from_bits(b);
        let other = f64::from_bits(others[others.len() - 1 - i]);
        is64("canonical64", b, canonical64(x), NAN64);
        is64("from_bits64", b, from_bits64(b), NAN64);
        is32("narrow", b, narrow(x), NAN32);
        assert!(!narrow_exact(x), "{b:016X} is a NaN and exact");
        is64("min64 with a NaN", b, min64(x, other), NAN64);
        is64("min64 before a number", b, min64(x, 1.5), 1.5f64.to_bits());
        is64("min64 after a number", b, min64(1.5, x), 1.5f64.to_bits());
        is64("clamp64", b, clamp64(x, 0.0, 1.0), NAN64);
        is64("clamp64 between NaNs", b, clamp64(x, other, x), NAN64);
        is64("clamp64 of a number between NaNs", b, clamp64(1.5, x, other), 1.5f64.to_bits());
    }
}

#[test]
fn f32_nans() {
    for b in nans32() {
        let x = f32::from_bits(b);
        is32("canonical32", b.into(), canonical32(x), NAN32);
        is32("from_bits32", b.into(), from_bits32(b), NAN32);
        is32("abs32", b.into(), abs32(x), NAN32);
        is64("widen", b.into(), widen(x), NAN64);
    }
}

/// A NaN that a prediction makes, and one that it is handed, in its row or its coefficients, alone or
/// among numbers, and where the coefficients end first.
#[test]
fn predictions() {
    is64("predict inf times 0", 0, predict(&[f64::INFINITY], &[0.0]), NAN64);
    is64(
        "predict inf less inf",
        0,
        predict(&[f64::INFINITY, 1.0], &[1.0, f64::NEG_INFINITY]),
        NAN64,
    );
    is64("predict of nothing", 0, predict(&[], &[]), 0);
    is64("predict", 0, predict(&[1.5, 2.0, 3.0], &[2.0, 0.5]), 4f64.to_bits());
    for b in nans64() {
        let x = f64::from_bits(b);
        is64("predict by a NaN", b, predict(&[1.0], &[x]), NAN64);
        is64("predict of a NaN", b, predict(&[x], &[1.0]), NAN64);
        is64("predict of a NaN among numbers", b, predict(&[1.0, x, 2.0], &[3.0, 1.0, 4.0]), NAN64);
        is64("predict to the end of beta", b, predict(&[x, 2.0, 3.0], &[1.0, 4.0]), NAN64);
    }
}

#[test]
fn numbers_stay() {
    for b in values64() {
        let x = f64::from_bits(b);
        is64("canonical64", b, canonical64(x), b);
        is64("from_bits64", b, from_bits64(b), b);
        is32("narrow", b, narrow(x), (x as f32).to_bits());
        assert_eq!(narrow_exact(x), (x as f32) as f64 == x, "{b:016X}");
        is64("min64", b, min64(x, x), b);
        is64("clamp64", b, clamp64(x, f64::NEG_INFINITY, f64::INFINITY), b);
    }
    for b in values32() {
        let x = f32::from_bits(b);
        is32("canonical32", b.into(), canonical32(x), b);
        is32("from_bits32", b.into(), from_bits32(b), b);
        is32("abs32", b.into(), abs32(x), x.abs().to_bits());
        is64("widen", b.into(), widen(x), f64::from(x).to_bits());
        assert!(narrow_exact(f64::from(x)), "{b:08X} is not exact");
    }
}
