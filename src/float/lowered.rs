// Made by `make package` of crates/fixed_float/src/lowered.rt, which is proved: changes go there.

//! Magnitudes shifted right, with a rounding.

use crate::word::Rounding;

/// Returns the magnitude of a number over `2^by`, rounded as named. The number is negative if `below_zero`.
#[inline]
pub(crate) fn lowered(below_zero: bool, magnitude: u64, by: u32, rounding: Rounding) -> u64 {
    let unit = 1 << by;
    let (quotient, remainder) = (magnitude >> by, magnitude % unit);
    quotient + step(rounding, below_zero, quotient, remainder, unit)
}

/// Returns 1 if the rounding makes the magnitude greater than `quotient`, and otherwise 0.
#[inline]
fn step(rounding: Rounding, below_zero: bool, quotient: u64, remainder: u64, unit: u64) -> u64 {
    let past = match rounding {
        Rounding::Down => below_zero && remainder > 0,
        Rounding::Zero => false,
        Rounding::Even => 2 * remainder + quotient % 2 > unit,
    };
    past as u64
}
