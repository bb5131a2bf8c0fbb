// Made by `make package` of crates/fixed_float/src/near.rt, which is proved: changes go there.

//! Floats near 0, rounded to whole numbers by one sum.

use crate::float::nearest::held_f64;
use crate::float::packed::packed_f64;
use crate::word::{RawWord, Rounding};

/// Returns the float in units of `2^-frac`, rounded to the nearest, ties to even. `None` decides nothing: the rounding
/// is another one, there are more than `2^50` units, or a word of at most 32 bits does not hold them.
#[inline]
pub(crate) fn whole_near<T: RawWord>(x: f64, frac: u32, rounding: Rounding) -> Option<i64> {
    match rounding {
        Rounding::Even if frac <= 64 => even_near::<T>(x, frac),
        _ => None,
    }
}

/// `1.5 * 2^52`. The last bit of a float from `2^52` to `2^53` is worth 1, so a sum in that range is rounded to a whole
/// number.
const CENTRE: f64 = 6755399441055744.0;

/// The bits of `CENTRE`.
const CENTRE_BITS: i64 = 0x4338_0000_0000_0000;

/// Does the same for the rounding to the nearest.
#[inline]
fn even_near<T: RawWord>(x: f64, frac: u32) -> Option<i64> {
    if is_near::<T>(x, frac) {
        Some(bits_of_sum(x, frac) as i64 - CENTRE_BITS)
    } else {
        None
    }
}

/// Returns whether there are at most `2^50` units, and whether a word of at most 32 bits holds them. To floats beyond, in
/// range of a word of 64 bits, a branch on each side would be slow.
#[inline]
fn is_near<T: RawWord>(x: f64, frac: u32) -> bool {
    if T::BITS <= 32 {
        is_between_ends::<T>(x, frac)
    } else {
        larger(x, -x) <= f64::from_bits((1073 - frac as u64) << 52)
    }
}

/// Returns whether the float lies between the least number of a word of at most 32 bits and the greatest one.
#[inline]
fn is_between_ends<T: RawWord>(x: f64, frac: u32) -> bool {
    let least = held_f64(0, T::MIN.magnitude(), frac);
    let most = held_f64(T::MAX.magnitude(), 0, frac);
    (least <= x) & (x <= most)
}

/// Returns the larger float.
#[inline]
pub(crate) fn larger(x: f64, y: f64) -> f64 {
    if x < y { y } else { x }
}

/// Returns the bits of the sum of `CENTRE` and the float in units of `2^-frac`: they exceed `CENTRE_BITS` by the number
/// of units, rounded to the nearest, ties to even. Precondition: there are at most `2^50` units.
#[inline]
pub(crate) fn bits_of_sum(x: f64, frac: u32) -> u64 {
    let units = x * f64::from_bits((1023 + frac as u64) << 52);
    let sum = units + CENTRE;
    sum.to_bits()
}

/// `2^32` times `CENTRE`.
const UPPER_CENTRE: f64 = 29014219670751100192948224.0;

/// Returns the lowest 64 bits of the float in units of `2^-frac`, rounded to the nearest, ties to even. One sum rounds
/// to units of `2^32`, and another one rounds the rest, which is exact. Precondition: there are at most `2^64` units.
#[inline]
pub(crate) fn bits_of_sums(x: f64, frac: u32) -> u64 {
    let units = x * f64::from_bits((1023 + frac as u64) << 52);
    let upper = units + UPPER_CENTRE;
    let rest = units - (upper - UPPER_CENTRE);
    let lower = rest + CENTRE;
    joined(upper.to_bits(), lower.to_bits())
}

/// Returns `upper * 2^32`, and by how much `lower` exceeds the bits of `CENTRE`, wrapped.
#[inline]
fn joined(upper: u64, lower: u64) -> u64 {
    (upper << 32)
        .wrapping_add(lower)
        .wrapping_sub(0x4338_0000_0000_0000)
}

/// Returns whether a word of 64 bits holds the number of units.
#[inline]
pub(crate) fn is_within<T: RawWord>(x: f64, frac: u32) -> bool {
    let (least, beyond) = (least_of::<T>(frac), beyond_of::<T>(frac));
    (least <= x) & (x < beyond)
}

/// Returns the least number of a word of 64 bits over `2^frac`.
#[inline]
pub(crate) fn least_of<T: RawWord>(frac: u32) -> f64 {
    if T::SIGNED {
        -packed_f64(0, 11, frac)
    } else {
        0.0
    }
}

/// Returns the number beyond the greatest one of a word of 64 bits, over `2^frac`.
#[inline]
pub(crate) fn beyond_of<T: RawWord>(frac: u32) -> f64 {
    packed_f64(0, if T::SIGNED { 11 } else { 12 }, frac)
}
