// Made by `make package` of crates/fixed_num/src/sign_magnitude.rt, which is proved: changes go there.

//! Computations by sign and magnitude, and by magnitude alone.

use crate::word::RawWord;

/// Returns the distance between two words.
pub(crate) fn distance<T: RawWord>(a: T, b: T) -> u64 {
    if a.is_below_zero() == b.is_below_zero() {
        a.magnitude().abs_diff(b.magnitude())
    } else {
        a.magnitude() + b.magnitude()
    }
}

/// Returns the smallest m with `magnitude < 2^m`.
pub(crate) fn bit_length(magnitude: u64) -> u32 {
    64 - magnitude.leading_zeros()
}

/// Returns the largest power of 2 that is at most the magnitude.
pub(crate) fn highest_power(magnitude: u64) -> u64 {
    1 << (bit_length(magnitude) - 1)
}
