// Made by `make package` of crates/fixed_face/src/remainders.rt, which is proved: changes go there.

//! Remainders and multiples. Operands and results are bits, in units of `2^-frac`.

use crate::face::answer::Code;
use crate::face::quotients::is_zero;
use crate::kernel::{next_multiple_of_of, rem_euclid_int_of, rem_euclid_of, rem_int_of, rem_of};
use crate::word::{Outcome, Word};

/// Returns `a - b q`, where q is the quotient of `a` and `b`, rounded toward zero. Fails with `ZeroDivisor` if `b` is
/// 0.
#[inline]
pub(crate) fn rem<T: Word>(a: T, b: T) -> Result<Outcome<T>, Code> {
    if is_zero(b) {
        return Err(Code::ZeroDivisor);
    }
    Ok(rem_of(a, b))
}

/// Returns `a - d q` for `d = k 2^frac`, where q is the quotient of `a` and d, rounded toward zero. Fails with
/// `FractionPastWidth` if `frac` is greater than the width, and with `ZeroDivisor` if `k` is 0.
#[inline]
pub(crate) fn rem_int<T: Word>(a: T, k: T, frac: u32) -> Result<Outcome<T>, Code> {
    if frac > T::BITS {
        return Err(Code::FractionPastWidth);
    }
    if is_zero(k) {
        return Err(Code::ZeroDivisor);
    }
    Ok(rem_int_of(a, k, frac))
}

/// Returns the Euclidean remainder of `a` and `b`, which is never negative. Fails with `ZeroDivisor` if `b` is 0.
#[inline]
pub(crate) fn rem_euclid<T: Word>(a: T, b: T) -> Result<Outcome<T>, Code> {
    if is_zero(b) {
        return Err(Code::ZeroDivisor);
    }
    Ok(rem_euclid_of(a, b))
}

/// Returns the Euclidean remainder of `a` and `k 2^frac`, which is never negative. Fails with `FractionPastWidth` if
/// `frac` is greater than the width, and with `ZeroDivisor` if `k` is 0.
#[inline]
pub(crate) fn rem_euclid_int<T: Word>(a: T, k: T, frac: u32) -> Result<Outcome<T>, Code> {
    if frac > T::BITS {
        return Err(Code::FractionPastWidth);
    }
    if is_zero(k) {
        return Err(Code::ZeroDivisor);
    }
    Ok(rem_euclid_int_of(a, k, frac))
}

/// Returns the smallest multiple of `b` that is at least `a` if `b` is positive, and the largest one that is at most
/// `a` if `b` is negative. Fails with `ZeroDivisor` if `b` is 0.
#[inline]
pub(crate) fn next_multiple_of<T: Word>(a: T, b: T) -> Result<Outcome<T>, Code> {
    if is_zero(b) {
        return Err(Code::ZeroDivisor);
    }
    Ok(next_multiple_of_of(a, b))
}
