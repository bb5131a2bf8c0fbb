// Made by `make package` of crates/fixed_convert/src/quotients.rt, which is proved: changes go there.

//! Quotients of integers of 128 bits by powers of two.

use crate::word::{Integer, Rounding};

/// Returns `number / 2^by`, rounded as named.
#[inline]
pub(crate) fn rounded_at(number: i128, by: u32, rounding: Rounding) -> i128 {
    match rounding {
        Rounding::Down => number.floored(by),
        Rounding::Zero => to_zero_at(number, by),
        Rounding::Even => to_even_at(number, by),
    }
}

/// Returns `number / 2^by`, rounded toward zero.
#[inline]
fn to_zero_at(number: i128, by: u32) -> i128 {
    let low = number.floored(by);
    if is_nearer_to_zero(number, low, by) {
        low.plus(1)
    } else {
        low
    }
}

/// Returns whether the quotient rounded toward zero is greater than `low`, the one rounded down. This is so if a
/// negative number is not a multiple of `2^by`.
#[inline]
fn is_nearer_to_zero(number: i128, low: i128, by: u32) -> bool {
    if number < 0 {
        low.scaled(by) < number
    } else {
        false
    }
}

/// Returns `number / 2^by`, rounded to the nearest, ties to even. To even quotients it adds a little less than 1/2.
#[inline]
fn to_even_at(number: i128, by: u32) -> i128 {
    half_added(number, parity(number.floored(by)).plus(-1), by)
}

/// Returns 1 if the number is odd, and otherwise 0.
#[inline]
fn parity(number: i128) -> i128 {
    number - number.floored(1).scaled(1)
}

/// Returns `number / 2^by`, rounded to the nearest, ties away from 0. To negative numbers it adds a little less than
/// 1/2.
#[inline]
pub(crate) fn nearest_at(number: i128, by: u32) -> i128 {
    half_added(number, sign_of(number), by)
}

/// Returns -1 if the number is negative, and otherwise 0.
#[inline]
fn sign_of(number: i128) -> i128 {
    if number < 0 { -1 } else { 0 }
}

/// Returns `number / 2^by` plus 1/2, or plus a little less than 1/2 if `more` is -1, rounded down. Loops compute a
/// sum and a shift for several numbers at once.
#[inline]
fn half_added(number: i128, more: i128, by: u32) -> i128 {
    if by == 0 {
        number
    } else {
        number.plus(1_i128.scaled(by - 1).plus(more)).floored(by)
    }
}
