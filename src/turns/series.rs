// Made by `make package` of crates/fixed_turns/src/series.rt, which is proved: changes go there.

//! The series of sine and cosine at an angle of up to an eighth of a turn. Numbers are in units of `2^-64`.

use crate::turns::constants::RADIANS;

/// The reciprocals of the factorials of 20 down to 0, in units of `2^-64`, rounded down, or a unit less if one is exact.
const RECIPROCALS: [u64; 21] = [
    u64::MAX / 2_432_902_008_176_640_000,
    u64::MAX / 121_645_100_408_832_000,
    u64::MAX / 6_402_373_705_728_000,
    u64::MAX / 355_687_428_096_000,
    u64::MAX / 20_922_789_888_000,
    u64::MAX / 1_307_674_368_000,
    u64::MAX / 87_178_291_200,
    u64::MAX / 6_227_020_800,
    u64::MAX / 479_001_600,
    u64::MAX / 39_916_800,
    u64::MAX / 3_628_800,
    u64::MAX / 362_880,
    u64::MAX / 40_320,
    u64::MAX / 5_040,
    u64::MAX / 720,
    u64::MAX / 120,
    u64::MAX / 24,
    u64::MAX / 6,
    u64::MAX / 2,
    u64::MAX,
    u64::MAX,
];

/// Returns the higher half of a product.
#[inline(always)]
pub(crate) fn high(a: u64, b: u64) -> u64 {
    ((u128::from(a) * u128::from(b)) >> 64) as u64
}

/// Returns `part` times the difference of 1 and `less`, rounded up.
#[inline(always)]
fn lessened(part: u64, less: u64) -> u64 {
    part - high(part, less)
}

/// Returns how many quotients the sum needs.
#[inline(always)]
fn quotients(bits: u32) -> u64 {
    if bits <= 32 { 6 } else { 9 }
}

/// Returns the reciprocal of a factorial in units of `2^-64`, rounded down, or a unit less if it is exact. Precondition:
/// n is at most 20.
#[inline(always)]
fn reciprocal(n: u64) -> u64 {
    RECIPROCALS[(20 - n) as usize]
}

/// Returns `q (1 - r (1 - ..))`, where q, r and so on are `count` quotients of `square`. The first is by
/// `first (first + 1)`, the next by `(first + 2) (first + 3)`. `first` is 1 for the cosine and 2 for the sine. It is
/// computed as `square (c - square (d - ..))`, where c, d and so on are reciprocals of factorials.
#[inline(always)]
fn nested(square: u64, first: u64, count: u64) -> u64 {
    let mut less = 0;
    for i in 0..count {
        let place = first + 2 * (count - 1 - i);
        less = high(square, reciprocal(place + 1) - less);
    }
    less
}

/// Returns the product by a factor in units of `2^-63`, rounded down. Precondition: the number is at most `2^63`.
#[inline(always)]
fn scaled(number: u64, factor: u64) -> u64 {
    let product = u128::from(number) * u128::from(factor);
    // by halves, so that the compiler sees a number of 64 bits
    2 * ((product >> 64) as u64) + ((product >> 63) % 2) as u64
}

/// Converts an angle from quarter turns to radians. The result is at most 2 units too small, and never too large.
/// Precondition: the angle is at most an eighth of a turn.
#[inline(always)]
pub(crate) fn radians_of(rest: u64) -> u64 {
    scaled(rest, RADIANS)
}

/// Returns the sine of `x` radians. If an exact angle is from `x` to `x + 2` units, the result differs from its sine by
/// at most `2^23` units, or 8 units on words of 64 bits. Precondition: `x` is
/// hardly more than an eighth of a turn.
#[inline(always)]
pub(crate) fn sine(x: u64, bits: u32) -> u64 {
    lessened(x, nested(high(x, x), 2, quotients(bits)))
}

/// Returns the cosine of `x` radians, with the same bound. It is at most 1. Precondition: `x` is hardly more
/// than an eighth of a turn.
#[inline(always)]
pub(crate) fn cosine(x: u64, bits: u32) -> u128 {
    (1 << 64) - u128::from(nested(high(x, x), 1, quotients(bits)))
}

/// Returns `first` if `is_first`, and otherwise `second`. As a function of its own it compiles to one selection.
#[inline]
pub(crate) fn either(is_first: bool, first: u64, second: u64) -> u64 {
    if is_first { first } else { second }
}

/// Returns the sine of quarter turns, at most 1, and `x` radians, on words of up to 32 bits. With a quarter turn this is
/// the cosine of `x`; that of 0 is a unit less than 1. If an exact angle differs from `x` by at most `2^18` units, the
/// result differs from its sine or cosine by at most `2^23` units. Numbers are selected, since no branch can be
/// predicted by the quarter. Precondition: `x` is hardly more than an eighth of a turn.
#[inline(always)]
pub(crate) fn narrow_sum(quarter: u64, x: u64) -> u64 {
    let factor = either(quarter == 1, u64::MAX, x);
    lessened(factor, nested(high(x, x), 2 - quarter, quotients(32)))
}

/// Returns the quotient by `2^shift`, rounded to the nearest. A tie is rounded up.
#[inline(always)]
pub(crate) fn rounded(units: u128, shift: u32) -> u128 {
    if shift == 0 {
        units
    } else {
        ((units >> (shift - 1)) + 1) >> 1
    }
}
