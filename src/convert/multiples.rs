// Made by `make package` of crates/fixed_convert/src/multiples.rt, which is proved: changes go there.

//! Rounding of an integer of 128 bits to multiples of `2^by`.

use crate::convert::quotients::{nearest_at, rounded_at};
use crate::word::{Integer, Rounding};

/// Returns the largest multiple of `2^by` that is at most the number.
#[inline]
pub(crate) fn floor_at(number: i128, by: u32) -> i128 {
    number.floored(by).scaled(by)
}

/// Returns the number minus the largest multiple of `2^by` that is at most it.
#[inline]
pub(crate) fn frac_at(number: i128, by: u32) -> i128 {
    number - floor_at(number, by)
}

/// Returns the smallest multiple of `2^by` that is at least the number.
#[inline]
pub(crate) fn ceil_at(number: i128, by: u32) -> i128 {
    -floor_at(-number, by)
}

/// Returns the nearest multiple of `2^by`, ties away from 0.
#[inline]
pub(crate) fn round_at(number: i128, by: u32) -> i128 {
    nearest_at(number, by).scaled(by)
}

/// Returns the nearest multiple of `2^by`, ties to even.
#[inline]
pub(crate) fn round_ties_even_at(number: i128, by: u32) -> i128 {
    rounded_at(number, by, Rounding::Even).scaled(by)
}
