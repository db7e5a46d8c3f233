//! Numbers of all sorts for generated scripts, programs and states, and the expressions by which those
//! that are not finite arise: a tree holds only finite ones (document 02, M-104).

use crate::rng::Rng;
use crate::tree::*;

/// Zeros, fractions, the largest and the smallest numbers, infinities and NaNs, borders.
pub const NUMBERS: [u64; 30] = [
    0x0000_0000_0000_0000, // 0
    0x8000_0000_0000_0000, // -0
    0x3ff0_0000_0000_0000, // 1
    0xbff0_0000_0000_0000, // -1
    0x3fe0_0000_0000_0000, // 0.5
    0xbfe0_0000_0000_0000, // -0.5
    0x4007_3333_3333_3333, // 2.9
    0xc01f_9999_9999_999a, // -7.9
    0x3fef_ffff_ffff_ffff, // just below 1
    0x3fb9_9999_9999_999a, // 0.1
    0x7ff8_0000_0000_0000, // NaN
    0xfff8_0000_0000_0001, // NaN with sign and payload
    0x7ff0_0000_0000_0001, // signalling NaN
    0x7ff0_0000_0000_0000, // infinity
    0xfff0_0000_0000_0000, // -infinity
    0x7fef_ffff_ffff_ffff, // the largest
    0xffef_ffff_ffff_ffff, // the largest below zero
    0x0000_0000_0000_0001, // the smallest
    0x8000_0000_0000_0001, // the smallest below zero
    0x0010_0000_0000_0000, // the smallest normal
    0x000f_ffff_ffff_ffff, // the largest subnormal
    0x4340_0000_0000_0000, // 2^53
    0x4340_0000_0000_0001, // 2^53 + 2
    0x43e0_0000_0000_0000, // 2^63
    0x43ef_ffff_ffff_ffff, // just below 2^64
    0x43f0_0000_0000_0000, // 2^64
    0x44b5_2d02_c7e1_4af6, // 1e23
    0x3cb0_0000_0000_0000, // 2^-52
    0x4008_0000_0000_0000, // 3
    0x4059_0000_0000_0000, // 100
];

/// Numbers whose neighbours tell which numbers are indexes.
const BORDERS: [u64; 13] = [
    0x3fe0_0000_0000_0000, // 0.5
    0x3ff0_0000_0000_0000, // 1
    0x4004_0000_0000_0000, // 2.5
    0x4037_0000_0000_0000, // 23
    0x4038_0000_0000_0000, // 24
    0x41ef_ffff_ffe0_0000, // 2^32 - 1
    0x41f0_0000_0000_0000, // 2^32
    0x4330_0000_0000_0000, // 2^52
    0x4340_0000_0000_0000, // 2^53
    0x43e0_0000_0000_0000, // 2^63
    0x43f0_0000_0000_0000, // 2^64
    0xbfe0_0000_0000_0000, // -0.5
    0xbff0_0000_0000_0000, // -1
];

/// Numbers to be used as indexes: those above, and the borders with their neighbours.
pub fn index_numbers() -> Vec<u64> {
    let mut out = NUMBERS.to_vec();
    for number in BORDERS.iter().flat_map(|border| border - 1..=border + 1) {
        if !out.contains(&number) {
            out.push(number);
        }
    }
    out
}

/// The first pattern of a finite number.
pub fn finite(mut patterns: impl FnMut() -> u64) -> u64 {
    loop {
        let pattern = patterns();
        if f64::from_bits(pattern).is_finite() {
            return pattern;
        }
    }
}

/// An expression that gives a number: its literal, or a division by zero where it is not finite.
pub fn value(number: f64) -> Node {
    let over_zero = |dividend: f64| binary(4, num(dividend), num(0.0));
    match number {
        n if n.is_finite() => num(n),
        n if n.is_nan() => over_zero(0.0),
        n => over_zero(n.signum()),
    }
}

/// Operations on finite numbers that give an infinity or a NaN.
const SPECIAL: [(u8, f64, f64); 14] = [
    (4, 1.0, 0.0),
    (4, f64::MAX, 0.5),
    (3, 1e308, 10.0),
    (1, f64::MAX, f64::MAX),
    (4, -1.0, 0.0),
    (4, 1.0, -0.0),
    (3, -1e308, 10.0),
    (2, -f64::MAX, f64::MAX),
    (4, 0.0, 0.0),
    (4, 0.0, -0.0),
    (4, -0.0, 0.0),
    (5, 0.0, 0.0),
    (5, 1.0, 0.0),
    (5, -1.5, -0.0),
];

/// An expression that gives an infinity or a NaN.
pub fn special(rng: &mut Rng) -> Node {
    let (op, left, right) = rng.pick(&SPECIAL);
    binary(op, num(left), num(right))
}

/// A number by its pattern, or an expression that gives an infinity or a NaN where it is not finite.
pub fn given(pattern: u64, rng: &mut Rng) -> Node {
    if f64::from_bits(pattern).is_finite() {
        bits(pattern)
    } else {
        special(rng)
    }
}
