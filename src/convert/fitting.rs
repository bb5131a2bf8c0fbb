// Made by `make package` of crates/fixed_convert/src/fitting.rt, which is proved: changes go there.

//! The outcome of a number that an integer of 128 bits holds.
//!
//! `fitted_by_ends` and `fitted_by_bits` return the same. In loops the first is faster for numbers that were shifted
//! left, since the compiler compares what was shifted with the shifted ends. The second can become one instruction
//! for numbers that were shifted right.

use crate::convert::castable::Castable;
use crate::word::{Outcome, Side};

/// Returns the outcome, by the ends of the range.
#[inline(always)]
pub(crate) fn fitted_by_ends<T: Castable>(number: i128) -> Outcome<T> {
    Outcome {
        wrapped: T::from_wide(number),
        side: side_by_ends::<T>(number),
    }
}

/// Returns the side of the number, by the ends of the range.
#[inline(always)]
fn side_by_ends<T: Castable>(number: i128) -> Side {
    if T::MAX.to_wide() < number {
        Side::Above
    } else if number < T::MIN.to_wide() {
        Side::Below
    } else {
        Side::Fits
    }
}

/// Returns the outcome, by the number wrapped to the word.
#[inline(always)]
pub(crate) fn fitted_by_bits<T: Castable>(number: i128) -> Outcome<T> {
    let wrapped = T::from_wide(number);
    Outcome {
        wrapped,
        side: side_by_bits(number, wrapped),
    }
}

/// Returns the side of the number, by the number wrapped to the word.
#[inline(always)]
fn side_by_bits<T: Castable>(number: i128, wrapped: T) -> Side {
    if wrapped.to_wide() == number {
        Side::Fits
    } else if number < 0 {
        Side::Below
    } else {
        Side::Above
    }
}

/// Returns the word nearest to the number. The number is clamped before it is truncated to the word; loops do both in
/// one instruction.
#[inline(always)]
pub(crate) fn clamped<T: Castable>(number: i128) -> T {
    T::from_wide(nearest_from(number, T::MIN.to_wide(), T::MAX.to_wide()))
}

/// Returns the nearest number from `least` to `most`.
#[inline(always)]
fn nearest_from(number: i128, least: i128, most: i128) -> i128 {
    if number < least {
        least
    } else if most < number {
        most
    } else {
        number
    }
}
