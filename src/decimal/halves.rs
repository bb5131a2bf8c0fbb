// Made by `make package` of crates/fixed_decimal/src/halves.rt, which is proved: changes go there.

//! Quotients rounded as named, from the quotient of twice the dividend.

use crate::word::Rounding;

/// Returns the magnitude of a rounded quotient. `halves` is twice the dividend over the divisor, rounded down, and
/// `rest` is whether that division left a remainder. The quotient is negative if `below_zero`.
#[inline]
#[must_use]
pub const fn rounded_halves(
    halves: u128,
    rest: bool,
    below_zero: bool,
    rounding: Rounding,
) -> u128 {
    let whole = halves / 2;
    let past = moves_past(rounding, below_zero, whole % 2 == 1, halves % 2 == 1, rest);
    whole + past as u128
}

/// Returns whether the rounding adds 1 to a whole magnitude, which a half and a smaller rest may follow.
#[inline]
const fn moves_past(
    rounding: Rounding,
    below_zero: bool,
    is_odd: bool,
    half: bool,
    rest: bool,
) -> bool {
    match rounding {
        Rounding::Down => below_zero && (half || rest),
        Rounding::Zero => false,
        Rounding::Even => half && (is_odd || rest),
    }
}

/// Returns the remainder of the number by `2^count`. Precondition: `count` is at most 64.
#[inline]
#[must_use]
pub const fn low_bits(number: u128, count: u32) -> u128 {
    number % (1 << count)
}
