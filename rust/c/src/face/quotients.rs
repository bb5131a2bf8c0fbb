// Made by `make package` of crates/fixed_face/src/quotients.rt, which is proved: changes go there.

//! Quotients, rounded toward zero, and Euclidean quotients. Operands and results are bits, in units of `2^-frac`.

use crate::face::answer::Code;
use crate::kernel::{div_euclid_int_of, div_euclid_of, div_int_of, div_of, recip_of};
use crate::word::{Outcome, RawWord, Word};

/// Returns whether the divisor `b` is 0.
#[inline]
pub(crate) fn is_zero<T: RawWord>(b: T) -> bool {
    b.magnitude() == 0
}

/// Returns `a 2^frac / b`, rounded toward zero. Fails with `FractionPastWidth` if `frac` is greater than the width, and
/// with `ZeroDivisor` if `b` is 0.
#[inline]
pub(crate) fn div<T: Word>(a: T, b: T, frac: u32) -> Result<Outcome<T>, Code> {
    if frac > T::BITS {
        return Err(Code::FractionPastWidth);
    }
    if is_zero(b) {
        return Err(Code::ZeroDivisor);
    }
    Ok(div_of(a, b, frac))
}

/// Returns `a / k`, rounded toward zero, for an integer `k`. Fails with `ZeroDivisor` if `k` is 0.
#[inline]
pub(crate) fn div_int<T: Word>(a: T, k: T) -> Result<Outcome<T>, Code> {
    if is_zero(k) {
        return Err(Code::ZeroDivisor);
    }
    Ok(div_int_of(a, k))
}

/// Returns `2^(2 frac) / a`, rounded toward zero. Fails with `FractionPastWidth` if `frac` is greater than the width,
/// and with `ZeroDivisor` if `a` is 0.
#[inline]
pub(crate) fn recip<T: Word>(a: T, frac: u32) -> Result<Outcome<T>, Code> {
    if frac > T::BITS {
        return Err(Code::FractionPastWidth);
    }
    if is_zero(a) {
        return Err(Code::ZeroDivisor);
    }
    Ok(recip_of(a, frac))
}

/// Returns the Euclidean quotient of `a` and `b`, which is an integer, times `2^frac`. Fails with `FractionPastWidth`
/// if `frac` is greater than the width, and with `ZeroDivisor` if `b` is 0.
#[inline]
pub(crate) fn div_euclid<T: Word>(a: T, b: T, frac: u32) -> Result<Outcome<T>, Code> {
    if frac > T::BITS {
        return Err(Code::FractionPastWidth);
    }
    if is_zero(b) {
        return Err(Code::ZeroDivisor);
    }
    Ok(div_euclid_of(a, b, frac))
}

/// Returns the Euclidean quotient of `a` and `k 2^frac`, which is an integer, times `2^frac`. Fails with
/// `FractionPastWidth` if `frac` is greater than the width, and with `ZeroDivisor` if `k` is 0.
#[inline]
pub(crate) fn div_euclid_int<T: Word>(a: T, k: T, frac: u32) -> Result<Outcome<T>, Code> {
    if frac > T::BITS {
        return Err(Code::FractionPastWidth);
    }
    if is_zero(k) {
        return Err(Code::ZeroDivisor);
    }
    Ok(div_euclid_int_of(a, k, frac))
}
