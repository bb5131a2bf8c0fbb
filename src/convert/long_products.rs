// Made by `make package` of crates/fixed_convert/src/long_products.rt, which is proved: changes go there.

//! Products of up to 128 bits and a sign.

use crate::convert::castable::Castable;
use crate::word::{Outcome, RawWord, Rounding, outcome_of_magnitude};

/// Returns the product of two words over `2^from` in units of `2^-to`, rounded as named.
#[inline]
pub(crate) fn long_product_of<A: Castable, B: Castable, T: Castable>(
    a: A,
    b: B,
    from: u32,
    to: u32,
    rounding: Rounding,
) -> Outcome<T> {
    let below_zero = a.is_below_zero() != b.is_below_zero();
    let magnitude = a.magnitude() as u128 * b.magnitude() as u128;
    if from <= to {
        outcome_of_magnitude(below_zero, raised_alike(magnitude, to - from))
    } else {
        outcome_of_magnitude(
            below_zero,
            lowered(below_zero, magnitude, from - to, rounding),
        )
    }
}

/// Returns a magnitude that has the same outcome as `magnitude 2^by` in every word.
#[inline]
fn raised_alike(magnitude: u128, by: u32) -> u128 {
    if magnitude == 0 {
        0
    } else if by >= 64 {
        1 << 64
    } else if magnitude < 1 << 64 {
        magnitude << by
    } else {
        (1 << 64) + ((magnitude % (1 << 64)) << by) % (1 << 64)
    }
}

/// Returns the magnitude of a number over `2^by`, rounded as named. The number is negative if `below_zero`.
#[inline]
fn lowered(below_zero: bool, magnitude: u128, by: u32, rounding: Rounding) -> u128 {
    if by == 128 {
        return step(rounding, below_zero, 0, magnitude, u128::MAX);
    }
    let unit = 1 << by;
    let (quotient, remainder) = (magnitude >> by, magnitude % unit);
    quotient + step(rounding, below_zero, quotient, remainder, unit - 1)
}

/// Returns 1 if the rounding makes the magnitude greater than `quotient`, and otherwise 0. The divisor, which may be
/// `2^128`, is `last + 1`.
#[inline]
fn step(rounding: Rounding, below_zero: bool, quotient: u128, remainder: u128, last: u128) -> u128 {
    let past = match rounding {
        Rounding::Down => below_zero && remainder > 0,
        Rounding::Zero => false,
        Rounding::Even => {
            let short = last - remainder;
            remainder > short && (quotient % 2 == 1 || remainder - short > 1)
        }
    };
    past as u128
}
