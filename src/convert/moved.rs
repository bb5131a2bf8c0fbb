// Made by `make package` of crates/fixed_convert/src/moved.rt, which is proved: changes go there.

//! Words multiplied and divided by powers of two.

use crate::convert::castable::Castable;
use crate::convert::fitting::{clamped, fitted_by_bits, fitted_by_ends};
use crate::convert::quotients::rounded_at;
use crate::word::{Integer, Outcome, RawWord, Rounding, Side, Valued};

/// Returns the outcome of `a 2^by`.
#[inline(always)]
pub(crate) fn raised<S: Castable, T: Castable>(a: S, by: u32) -> Outcome<T> {
    if by < T::BITS {
        fitted_by_ends(a.to_wide().scaled(by))
    } else {
        moved_out(a)
    }
}

/// Returns the outcome of `a 2^by` if `by` is at least the width, so that no bit of `a` is left.
#[inline]
fn moved_out<S: Castable, T: Castable>(a: S) -> Outcome<T> {
    Outcome {
        wrapped: T::ZERO,
        side: side_of_sign(a),
    }
}

/// Returns the side of every multiple of `a` that is out of range; `Fits` if `a` is 0.
#[inline]
fn side_of_sign<S: Castable>(a: S) -> Side {
    if a.magnitude() == 0 {
        Side::Fits
    } else if a.is_below_zero() {
        Side::Below
    } else {
        Side::Above
    }
}

/// Returns the outcome of `a / 2^by`, rounded down.
#[inline]
pub(crate) fn lowered<S: Castable, T: Castable>(a: S, by: u32) -> Outcome<T> {
    fitted_by_bits(a.to_wide().floored(at_most(by)))
}

/// Returns the outcome of `a / 2^by`, rounded as named.
#[inline]
pub(crate) fn lowered_round<S: Castable, T: Castable>(
    a: S,
    by: u32,
    rounding: Rounding,
) -> Outcome<T> {
    fitted_by_bits(rounded_at(a.to_wide(), at_most(by), rounding))
}

/// Returns the word nearest to `a / 2^by`, rounded as named.
#[inline]
pub(crate) fn lowered_clamped<S: Castable, T: Castable>(a: S, by: u32, rounding: Rounding) -> T {
    clamped(rounded_at(a.to_wide(), at_most(by), rounding))
}

/// Returns a shift, at most 66, with the same result for every word: a quotient by `2^66` or more is smaller than
/// 1/4.
#[inline]
fn at_most(by: u32) -> u32 {
    if by < 66 { by } else { 66 }
}
