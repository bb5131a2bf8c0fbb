// Made by `make package` of crates/tests_kernel/src/plain.rt, which is proved: changes go there.

//! Plain computations in wider numbers, which the answers are compared with.

use crate::word::{Outcome, Side};

/// What eight bits leave of a number, and whether it does not fit them.
pub fn left_of(number: i64, signed: bool) -> (i64, bool) {
    let low = number.rem_euclid(256);
    let kept = if signed && low > 127 { low - 256 } else { low };
    (kept, kept != number)
}

pub fn signed_byte(found: Option<Outcome<i8>>) -> Option<(i64, bool)> {
    let outcome = found?;
    Some((outcome.wrapped as i64, outcome.side != Side::Fits))
}

pub fn unsigned_byte(found: Option<Outcome<u8>>) -> Option<(i64, bool)> {
    let outcome = found?;
    Some((outcome.wrapped as i64, outcome.side != Side::Fits))
}

/// `number 2^places`, rounded down where `places` is below 0.
pub fn moved(number: i64, places: i32) -> i64 {
    let by = places.unsigned_abs();
    if by > 31 {
        0
    } else if places < 0 {
        number >> by
    } else {
        number.wrapping_mul(1 << by)
    }
}

/// `a / b`, rounded toward zero; 0 for a divisor 0.
pub fn quotient(a: i64, b: i64) -> i64 {
    if b == 0 { 0 } else { a.wrapping_div(b) }
}

/// `a - b q`, with the quotient q rounded toward zero.
pub fn remainder(a: i64, b: i64) -> i64 {
    a.wrapping_sub(b.wrapping_mul(quotient(a, b)))
}

/// The quotient that leaves a remainder of at least 0.
pub fn euclidean(a: i64, b: i64) -> i64 {
    let near = quotient(a, b);
    if remainder(a, b) >= 0 {
        near
    } else if b > 0 {
        near.wrapping_sub(1)
    } else {
        near.wrapping_add(1)
    }
}

/// The multiple of `b` next to `a`, on the side of the sign of `b`.
pub fn multiple(a: i64, b: i64) -> i64 {
    if b > 0 {
        b.wrapping_mul(euclidean(a.wrapping_neg(), b))
            .wrapping_neg()
    } else {
        b.wrapping_mul(euclidean(a, b))
    }
}

/// The number modulo the count of words of that width.
pub fn low_bits(below_zero: bool, magnitude: u128, bits: u32) -> u128 {
    let all = words_of(bits);
    let low = magnitude % all;
    if below_zero && low > 0 {
        all - low
    } else {
        low
    }
}

/// How many words of that width there are.
fn words_of(bits: u32) -> u128 {
    match bits {
        8 => 256,
        16 => 65536,
        32 => 4294967296,
        _ => 18446744073709551616,
    }
}

/// That each of these facts holds, by its name.
pub fn all_hold(of: &str, facts: &[(&'static str, bool)]) {
    for (what, holds) in facts {
        assert!(*holds, "{of}: {what}");
    }
}
