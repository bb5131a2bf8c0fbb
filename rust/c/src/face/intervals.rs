// Made by `make package` of crates/fixed_face/src/intervals.rt, which is proved: changes go there.

//! Operations on intervals, by their ends.
//!
//! Ends are bits, in units of `2^-frac`. Each function writes the ends of the result, rounded outward, and returns 0.
//! If it fails, both ends are unchanged.

use crate::face::answer::Code;
use crate::interval::{Interval, add_in, div_in, mul_in, sqrt_in, sub_in};
use crate::word::{Ordered, RawWord, Word};

/// Writes the ends of the sums of a number in `a` and one in `b`. Nothing is rounded. Fails with `EndsExchanged` if the
/// low end of an operand is greater than its high end, and with `OutOfRange` if an end of the result does not fit.
#[inline]
pub(crate) fn add<T: Word>(
    a_low: T,
    a_high: T,
    b_low: T,
    b_high: T,
    low: &mut T,
    high: &mut T,
) -> i32 {
    if are_exchanged(a_low, a_high) {
        return Code::EndsExchanged.number();
    }
    if are_exchanged(b_low, b_high) {
        return Code::EndsExchanged.number();
    }
    let a = interval(a_low, a_high);
    let b = interval(b_low, b_high);
    leave(add_in(&a, &b), low, high)
}

/// Writes the ends of the differences of a number in `a` and one in `b`. Nothing is rounded. Fails with `EndsExchanged`
/// if the low end of an operand is greater than its high end, and with `OutOfRange` if an end of the result does not
/// fit.
#[inline]
pub(crate) fn sub<T: Word>(
    a_low: T,
    a_high: T,
    b_low: T,
    b_high: T,
    low: &mut T,
    high: &mut T,
) -> i32 {
    if are_exchanged(a_low, a_high) {
        return Code::EndsExchanged.number();
    }
    if are_exchanged(b_low, b_high) {
        return Code::EndsExchanged.number();
    }
    let a = interval(a_low, a_high);
    let b = interval(b_low, b_high);
    leave(sub_in(&a, &b), low, high)
}

/// Writes the ends of the products of a number in `a` and one in `b`, each over `2^frac`: the least product of two
/// ends, rounded down, and the greatest, rounded up. Fails with `FractionPastWidth` if `frac` is greater than the
/// width, with `EndsExchanged` if the low end of an operand is greater than its high end, and with `OutOfRange` if an
/// end of the result does not fit.
#[inline]
pub(crate) fn mul<T: Word>(
    a_low: T,
    a_high: T,
    b_low: T,
    b_high: T,
    frac: u32,
    low: &mut T,
    high: &mut T,
) -> i32 {
    if frac > T::BITS {
        return Code::FractionPastWidth.number();
    }
    if are_exchanged(a_low, a_high) {
        return Code::EndsExchanged.number();
    }
    if are_exchanged(b_low, b_high) {
        return Code::EndsExchanged.number();
    }
    let a = interval(a_low, a_high);
    let b = interval(b_low, b_high);
    leave(mul_in(&a, &b, frac), low, high)
}

/// Writes the ends of the quotients of a number in `a` by one in `b`, each times `2^frac`: the least quotient of two
/// ends, rounded down, and the greatest, rounded up. Fails with `FractionPastWidth` if `frac` is greater than the
/// width, with `EndsExchanged` if the low end of an operand is greater than its high end, with `ZeroDivisor` if 0 is in
/// `b`, and with `OutOfRange` if an end of the result does not fit.
#[inline]
pub(crate) fn div<T: Word>(
    a_low: T,
    a_high: T,
    b_low: T,
    b_high: T,
    frac: u32,
    low: &mut T,
    high: &mut T,
) -> i32 {
    if frac > T::BITS {
        return Code::FractionPastWidth.number();
    }
    if are_exchanged(a_low, a_high) {
        return Code::EndsExchanged.number();
    }
    if are_exchanged(b_low, b_high) {
        return Code::EndsExchanged.number();
    }
    if holds_zero(b_low, b_high) {
        return Code::ZeroDivisor.number();
    }
    let a = interval(a_low, a_high);
    let b = interval(b_low, b_high);
    leave(div_in(&a, &b, frac), low, high)
}

/// Writes the ends of the roots of `x 2^frac` for the numbers x in `a`: the root for the low end, rounded down, and
/// that for the high end, rounded up. Fails with `FractionPastWidth` if `frac` is greater than the width, with
/// `EndsExchanged` if the low end of an operand is greater than its high end, with `NegativeRoot` if the low end is
/// negative, and with `OutOfRange` if an end of the result does not fit.
#[inline]
pub(crate) fn sqrt<T: Word>(a_low: T, a_high: T, frac: u32, low: &mut T, high: &mut T) -> i32 {
    if frac > T::BITS {
        return Code::FractionPastWidth.number();
    }
    if are_exchanged(a_low, a_high) {
        return Code::EndsExchanged.number();
    }
    if is_below_zero(a_low) {
        return Code::NegativeRoot.number();
    }
    let a = interval(a_low, a_high);
    leave(sqrt_in(&a, frac), low, high)
}

/// Returns whether the low end is greater than the high end.
#[inline]
fn are_exchanged<T: Ordered>(low: T, high: T) -> bool {
    high < low
}

/// Returns whether the number is negative.
#[inline]
fn is_below_zero<T: RawWord>(a: T) -> bool {
    a.is_below_zero()
}

/// Returns whether 0 lies between these ends, or is one of them.
#[inline]
fn holds_zero<T: RawWord + Ordered>(low: T, high: T) -> bool {
    is_at_most(low, T::ZERO) && is_at_most(T::ZERO, high)
}

/// Returns whether the first number is at most the second.
#[inline]
fn is_at_most<T: Ordered>(a: T, b: T) -> bool {
    a <= b
}

/// Returns the interval with these ends. Precondition: the low end is at most the high end.
#[inline]
fn interval<T: Word>(low: T, high: T) -> Interval<T> {
    Interval::new(low, high).unwrap()
}

/// Writes the ends of the interval that was found, and returns 0. If there is none, leaves both ends unchanged, and
/// returns the number of `OutOfRange`.
#[inline]
fn leave<T: Word>(found: Option<Interval<T>>, low: &mut T, high: &mut T) -> i32 {
    match found {
        Some(interval) => {
            *low = interval.lo();
            *high = interval.hi();
            0
        }
        None => Code::OutOfRange.number(),
    }
}
