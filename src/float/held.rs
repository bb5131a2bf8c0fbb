// Made by `make package` of crates/fixed_float/src/held.rt, which is proved: changes go there.

//! Conversions of floats to the nearest word.

use crate::float::binary::Binary;
use crate::float::incoming::magnitude_of_parts;
use crate::float::near::{beyond_of, bits_of_sum, bits_of_sums, larger, least_of};
use crate::float::nearest::held_f64;
use crate::float::parts::parts_of;
use crate::word::{RawWord, Rounding};

/// Returns the float in units of `2^-frac`, rounded as named, or the nearest word if that does not fit. An infinity
/// returns the end of the range on its side. Precondition: the float is not a NaN.
///
/// # Examples
///
/// ```
/// use zugyelmas::float::saturating_float_of;
/// use zugyelmas::word::Rounding;
///
/// // In units of 1/16.
/// assert_eq!(saturating_float_of::<f64, i8>(1.5, 4, Rounding::Even), 24);
/// assert_eq!(saturating_float_of::<f64, i8>(-9.0, 4, Rounding::Even), i8::MIN);
/// assert_eq!(saturating_float_of::<f64, i8>(f64::INFINITY, 4, Rounding::Even), i8::MAX);
/// ```
///
/// # Panics
///
/// Panics unless the float is not a NaN.
///
/// # Proved
///
/// ```text
/// requires { NotNan (X.float x) }
/// ensures { Some (T.value result)
///     ≡ saturated_float T.SIGNED T.BITS (X.float x) frac rounding }
/// ```
///
/// Definitions: [`saturated_float`].
///
/// [`saturated_float`]: crate::definitions::float_rows
#[inline]
#[track_caller]
#[must_use]
pub fn saturating_float_of<X: Binary, T: RawWord>(x: X, frac: u32, rounding: Rounding) -> T {
    assert!(
        !x.widened().is_nan(),
        "precondition: the float is not a NaN"
    );
    let wide = x.widened();
    match rounding {
        Rounding::Even if frac <= 64 && T::BITS <= 32 => even_held(wide, frac),
        _ => wide_held(wide, frac, rounding),
    }
}

/// Does the same for every `f64`: of words of 64 bits by two sums. Precondition: it is not a NaN.
#[inline]
fn wide_held<T: RawWord>(x: f64, frac: u32, rounding: Rounding) -> T {
    match rounding {
        Rounding::Even if frac <= 64 && T::BITS > 32 => long_held(x, frac),
        _ => held_by_parts(x, frac, rounding),
    }
}

/// Does the same for every `f64`, of words of at most 32 bits, by a sum. Loops do this without a branch. Preconditions:
/// it is not a NaN, and `frac` is at most 64.
#[inline]
fn even_held<T: RawWord>(x: f64, frac: u32) -> T {
    let least = held_f64(0, T::MIN.magnitude(), frac);
    let most = held_f64(T::MAX.magnitude(), 0, frac);
    let held = clamped(x, least, most);
    // The lowest 32 bits of the centre's are 0.
    T::residue(false, bits_of_sum(held, frac) as u128)
}

/// Returns the number nearest to `x` from `least` to `most`. Precondition: `most` is not below `least`.
#[inline]
fn clamped(x: f64, least: f64, most: f64) -> f64 {
    smaller(larger(x, least), most)
}

/// Returns the smaller float.
#[inline]
fn smaller(x: f64, y: f64) -> f64 {
    if y < x { y } else { x }
}

/// Does the same for every `f64`, of words of 64 bits, by two sums. Preconditions: it is not a NaN, and `frac` is at
/// most 64.
#[inline]
fn long_held<T: RawWord>(x: f64, frac: u32) -> T {
    let (least, beyond) = (least_of::<T>(frac), beyond_of::<T>(frac));
    if (least <= x) & (x < beyond) {
        T::residue(false, bits_of_sums(x, frac) as u128)
    } else {
        end_on(x < least)
    }
}

/// Does the same for every `f64`, by its bits. Precondition: it is not a NaN.
#[inline]
fn held_by_parts<T: RawWord>(x: f64, frac: u32, rounding: Rounding) -> T {
    match parts_of(x) {
        Some(parts) => magnitude_held(parts.below_zero, magnitude_of_parts(parts, frac, rounding)),
        None => end_beside(x),
    }
}

/// Returns the number of the word that is nearest to the magnitude with that sign. A branch on the sign would be slow.
#[inline]
fn magnitude_held<T: RawWord>(below_zero: bool, magnitude: u128) -> T {
    let end: T = end_on(below_zero);
    let past = magnitude > end.magnitude() as u128;
    T::residue(below_zero, magnitude).unless(past, end)
}

/// Returns the end of the range on the side of an infinity.
#[inline]
fn end_beside<T: RawWord>(x: f64) -> T {
    end_on(x < 0.0)
}

/// Returns the lower end of the range if `below_zero`, and otherwise the upper end.
#[inline]
pub(crate) fn end_on<T: RawWord>(below_zero: bool) -> T {
    if below_zero { T::MIN } else { T::MAX }
}
