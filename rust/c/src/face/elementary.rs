// Made by `make package` of crates/fixed_face/src/elementary.rt, which is proved: changes go there.

//! Lengths, reciprocal roots, logarithms, powers, sines, cosines and angles.
//!
//! Operands and results are bits, in units of `2^-frac`. Each function writes a number of the word and returns 0. If it
//! fails, the number is unchanged.

use crate::elementary::{exp2_of, hypot_of, log2_of, recip_sqrt_of};
use crate::face::answer::Code;
use crate::natural::{exp_of, ln_of, log10_of, pow_of};
use crate::turns::{
    atan2_of, atan2_turns_of, cos_of, cos_turns_of, sin_cos_of, sin_cos_turns_of, sin_of,
    sin_turns_of,
};
use crate::word::{Outcome, RawWord, Word, checked_of};

/// Returns whether `a` is above 0.
#[inline]
fn is_above_zero<T: RawWord>(a: T) -> bool {
    !a.is_below_zero() && a.magnitude() > 0
}

/// Returns whether the point `(x, y)` is the origin.
#[inline]
fn is_origin<T: RawWord>(y: T, x: T) -> bool {
    y.magnitude() == 0 && x.magnitude() == 0
}

/// Writes the number that the outcome stands for, and returns 0. If that does not fit, leaves the number unchanged, and
/// returns the number of `OutOfRange`.
#[inline]
fn leave<T: Word>(outcome: Outcome<T>, number: &mut T) -> i32 {
    match checked_of(outcome) {
        Some(found) => {
            *number = found;
            0
        }
        None => Code::OutOfRange.number(),
    }
}

/// Writes the numbers that both outcomes stand for, and returns 0. If one of both does not fit, leaves both numbers
/// unchanged, and returns the number of `OutOfRange`.
#[inline]
fn leave_both<T: Word>(outcomes: (Outcome<T>, Outcome<T>), first: &mut T, second: &mut T) -> i32 {
    match (checked_of(outcomes.0), checked_of(outcomes.1)) {
        (Some(one), Some(other)) => {
            *first = one;
            *second = other;
            0
        }
        _ => Code::OutOfRange.number(),
    }
}

/// Writes the length of the pair `(a, b)`, which is the root of `a^2 + b^2`, rounded down. Operands and result have the
/// same number of fraction bits, which may be any. Fails with `OutOfRange` if the number does not fit.
#[inline]
pub fn hypot<T: Word>(a: T, b: T, number: &mut T) -> i32 {
    leave(hypot_of(a, b), number)
}

/// Writes one over the square root of `a / 2^frac`, rounded down. Fails with `FractionPastWidth` if `frac` is greater
/// than the width, with `NotPositive` if `a` is not positive, and with `OutOfRange` if the number does not fit.
#[inline]
pub fn recip_sqrt<T: Word>(a: T, frac: u32, number: &mut T) -> i32 {
    if frac > T::BITS {
        return Code::FractionPastWidth.number();
    }
    if !is_above_zero(a) {
        return Code::NotPositive.number();
    }
    leave(recip_sqrt_of(a, frac), number)
}

/// Writes the logarithm of `a / 2^frac` to the base 2. For the result r and the exact logarithm l in units,
/// `r <= l < r + 1 + 2^-k`, where `frac + k` is 62 on words of up to 32 bits and 126 on words of 64 bits. The logarithm
/// of a power of two is exact. Fails with `FractionPastWidth` if `frac` is greater than the width, with `NotPositive`
/// if `a` is not positive, and with `OutOfRange` if the number does not fit.
#[inline]
pub fn log2<T: Word>(a: T, frac: u32, number: &mut T) -> i32 {
    if frac > T::BITS {
        return Code::FractionPastWidth.number();
    }
    if !is_above_zero(a) {
        return Code::NotPositive.number();
    }
    leave(log2_of(a, frac), number)
}

/// Writes the natural logarithm of `a / 2^frac`. For the result r and the exact logarithm l in units,
/// `r - 2^-k <= l < r + 1`, where k is 24 on words of up to 32 bits and 32 on words of 64 bits. Fails with
/// `FractionPastWidth` if `frac` is greater than the width, with `NotPositive` if `a` is not positive, and with
/// `OutOfRange` if the number does not fit.
#[inline]
pub fn ln<T: Word>(a: T, frac: u32, number: &mut T) -> i32 {
    if frac > T::BITS {
        return Code::FractionPastWidth.number();
    }
    if !is_above_zero(a) {
        return Code::NotPositive.number();
    }
    leave(ln_of(a, frac), number)
}

/// Writes the logarithm of `a / 2^frac` to the base 10. For the result r and the exact logarithm l in units,
/// `r - 2^-k <= l < r + 1`, where k is 24 on words of up to 32 bits and 32 on words of 64 bits. Fails with
/// `FractionPastWidth` if `frac` is greater than the width, with `NotPositive` if `a` is not positive, and with
/// `OutOfRange` if the number does not fit.
#[inline]
pub fn log10<T: Word>(a: T, frac: u32, number: &mut T) -> i32 {
    if frac > T::BITS {
        return Code::FractionPastWidth.number();
    }
    if !is_above_zero(a) {
        return Code::NotPositive.number();
    }
    leave(log10_of(a, frac), number)
}

/// Writes 2 to the power of `a / 2^frac`. For the result r and the exact power p in units, `r <= p < (r + 1) 2^(2^-k)`,
/// where k is 54 on words of up to 32 bits and 117 on words of 64 bits. 2 to the power of a whole number of at least
/// `-frac` is exact. Fails with `FractionPastWidth` if `frac` is greater than the width, and with `OutOfRange` if the
/// number does not fit.
#[inline]
pub fn exp2<T: Word>(a: T, frac: u32, number: &mut T) -> i32 {
    if frac > T::BITS {
        return Code::FractionPastWidth.number();
    }
    leave(exp2_of(a, frac), number)
}

/// Writes e to the power of `a / 2^frac`. For the result r and the exact power p in units, `r <= p 2^(2^-61)`, and
/// `p < r + 1`. e to the power of 0 is exactly 1. Fails with `FractionPastWidth` if `frac` is greater than the width,
/// and with `OutOfRange` if the number does not fit.
#[inline]
pub fn exp<T: Word>(a: T, frac: u32, number: &mut T) -> i32 {
    if frac > T::BITS {
        return Code::FractionPastWidth.number();
    }
    leave(exp_of(a, frac), number)
}

/// Writes `a / 2^frac` to the power of `b / 2^frac`. For the result r and the exact power p in units,
/// `r <= p 2^(2^-55)`, and `p < r + 1`. Fails with `FractionPastWidth` if `frac` is greater than the width, with
/// `NotPositive` if `a` is not positive, and with `OutOfRange` if the number does not fit.
#[inline]
pub fn pow<T: Word>(a: T, b: T, frac: u32, number: &mut T) -> i32 {
    if frac > T::BITS {
        return Code::FractionPastWidth.number();
    }
    if !is_above_zero(a) {
        return Code::NotPositive.number();
    }
    leave(pow_of(a, b, frac), number)
}

/// Writes the sine of `a / 2^frac` radians, rounded to the nearest. It differs from the exact sine by at most half a
/// unit plus `2^-k`, where k is 41 on words of up to 32 bits and 61 on words of 64 bits. The sine of 0 is exact. Fails
/// with `FractionPastWidth` if `frac` is greater than the width, and with `OutOfRange` if the number does not fit.
#[inline]
pub fn sin<T: Word>(a: T, frac: u32, number: &mut T) -> i32 {
    if frac > T::BITS {
        return Code::FractionPastWidth.number();
    }
    leave(sin_of(a, frac), number)
}

/// Writes the cosine of `a / 2^frac` radians, rounded to the nearest. It differs from the exact cosine by at most half
/// a unit plus `2^-k`, where k is 41 on words of up to 32 bits and 61 on words of 64 bits. The cosine of 0 is exact.
/// Fails with `FractionPastWidth` if `frac` is greater than the width, and with `OutOfRange` if the number does not
/// fit.
#[inline]
pub fn cos<T: Word>(a: T, frac: u32, number: &mut T) -> i32 {
    if frac > T::BITS {
        return Code::FractionPastWidth.number();
    }
    leave(cos_of(a, frac), number)
}

/// Writes the sine and the cosine of `a / 2^frac` radians, as `sin` and `cos` do. Fails with `FractionPastWidth` if
/// `frac` is greater than the width, and with `OutOfRange` if one of both does not fit: both numbers are then
/// unchanged.
#[inline]
pub fn sin_cos<T: Word>(a: T, frac: u32, sine: &mut T, cosine: &mut T) -> i32 {
    if frac > T::BITS {
        return Code::FractionPastWidth.number();
    }
    leave_both(sin_cos_of(a, frac), sine, cosine)
}

/// Writes the sine of `a / 2^frac` turns, rounded to the nearest. It differs from the exact sine by at most half a unit
/// plus `2^-k`, where k is 41 on words of up to 32 bits and 61 on words of 64 bits. Sines of whole quarter turns are
/// exact. Fails with `FractionPastWidth` if `frac` is greater than the width, and with `OutOfRange` if the number does
/// not fit.
#[inline]
pub fn sin_turns<T: Word>(a: T, frac: u32, number: &mut T) -> i32 {
    if frac > T::BITS {
        return Code::FractionPastWidth.number();
    }
    leave(sin_turns_of(a, frac), number)
}

/// Writes the cosine of `a / 2^frac` turns, rounded to the nearest. It differs from the exact cosine by at most half a
/// unit plus `2^-k`, where k is 41 on words of up to 32 bits and 61 on words of 64 bits. Cosines of whole quarter turns
/// are exact. Fails with `FractionPastWidth` if `frac` is greater than the width, and with `OutOfRange` if the number
/// does not fit.
#[inline]
pub fn cos_turns<T: Word>(a: T, frac: u32, number: &mut T) -> i32 {
    if frac > T::BITS {
        return Code::FractionPastWidth.number();
    }
    leave(cos_turns_of(a, frac), number)
}

/// Writes the sine and the cosine of `a / 2^frac` turns, as `sin_turns` and `cos_turns` do. Fails with
/// `FractionPastWidth` if `frac` is greater than the width, and with `OutOfRange` if one of both does not fit: both
/// numbers are then unchanged.
#[inline]
pub fn sin_cos_turns<T: Word>(a: T, frac: u32, sine: &mut T, cosine: &mut T) -> i32 {
    if frac > T::BITS {
        return Code::FractionPastWidth.number();
    }
    leave_both(sin_cos_turns_of(a, frac), sine, cosine)
}

/// Writes the angle of the point `(x, y)` in units of `2^-frac` radians, from -pi to pi, rounded to the nearest. It
/// differs from the exact angle by at most half a unit plus `2^-k` radians, where k is 40 on words of up to 32 bits and
/// 60 on words of 64 bits. The angle 0 is exact. Fails with `FractionPastWidth` if `frac` is greater than the width,
/// with `NoAngle` if both coordinates are 0, and with `OutOfRange` if the number does not fit.
#[inline]
pub fn atan2<T: Word>(y: T, x: T, frac: u32, number: &mut T) -> i32 {
    if frac > T::BITS {
        return Code::FractionPastWidth.number();
    }
    if is_origin(y, x) {
        return Code::NoAngle.number();
    }
    leave(atan2_of(y, x, frac), number)
}

/// Writes the angle of the point `(x, y)` in units of `2^-frac` turns, from -1/2 to 1/2 turns, rounded to the nearest.
/// It differs from the exact angle by at most half a unit plus `2^-k` radians, where k is 40 on words of up to 32 bits
/// and 60 on words of 64 bits. Multiples of 1/8 are exact if they are whole numbers of units. Fails with
/// `FractionPastWidth` if `frac` is greater than the width, with `NoAngle` if both coordinates are 0, and with
/// `OutOfRange` if the number does not fit.
#[inline]
pub fn atan2_turns<T: Word>(y: T, x: T, frac: u32, number: &mut T) -> i32 {
    if frac > T::BITS {
        return Code::FractionPastWidth.number();
    }
    if is_origin(y, x) {
        return Code::NoAngle.number();
    }
    leave(atan2_turns_of(y, x, frac), number)
}
