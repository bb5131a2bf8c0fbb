// Made by `make package` of crates/fixed_float/src/incoming.rt, which is proved: changes go there.

//! Conversions of floats to words.

use crate::casts::CastUnsigned;
use crate::float::binary::Binary;
use crate::float::held::end_on;
use crate::float::lowered::lowered;
use crate::float::near::{bits_of_sums, is_within, whole_near};
use crate::float::parts::{LEAST, Parts, parts_of};
use crate::word::{Outcome, RawWord, Rounding, Side};

/// Returns the outcome of the float in units of `2^-frac`, rounded to the nearest, ties to even. Returns `None` for a
/// NaN and the infinities.
///
/// # Examples
///
/// ```
/// use zugyelmas::float::from_float_of;
/// use zugyelmas::word::{Outcome, Rounding, Side};
///
/// // In units of 1/16.
/// assert_eq!(from_float_of(1.5, 4), Some(Outcome { wrapped: 24_i8, side: Side::Fits }));
/// // half a unit, a tie
/// assert_eq!(from_float_of(0.03125, 4), Some(Outcome { wrapped: 0_i8, side: Side::Fits }));
/// assert_eq!(from_float_of(9.0, 4), Some(Outcome { wrapped: -112_i8, side: Side::Above }));
/// assert_eq!(from_float_of::<f64, i8>(f64::NAN, 4), None);
/// assert_eq!(from_float_of::<f64, i8>(f64::INFINITY, 4), None);
/// ```
///
/// # Proved
///
/// ```text
/// ensures { IsOutcomeOfRow T.value T.SIGNED T.BITS (units_of_float (X.float x) frac Even) result }
/// ```
///
/// Definitions: [`IsOutcomeOfRow`], [`units_of_float`].
///
/// [`IsOutcomeOfRow`]: crate::definitions::word_standing
/// [`units_of_float`]: crate::definitions::float_rows
#[inline]
#[must_use]
pub fn from_float_of<X: Binary, T: RawWord>(x: X, frac: u32) -> Option<Outcome<T>> {
    from_float_round_of(x, frac, Rounding::Even)
}

/// Returns the outcome of the float in units of `2^-frac`, rounded as named. Returns `None` for a NaN and the
/// infinities.
///
/// # Examples
///
/// ```
/// use zugyelmas::float::from_float_round_of;
/// use zugyelmas::word::{Outcome, Rounding, Side};
///
/// // In units of 1/16: -1.59375 is -25.5 units.
/// let round = |rounding| from_float_round_of::<f64, i8>(-1.59375, 4, rounding);
/// assert_eq!(round(Rounding::Down), Some(Outcome { wrapped: -26, side: Side::Fits }));
/// assert_eq!(round(Rounding::Zero), Some(Outcome { wrapped: -25, side: Side::Fits }));
/// assert_eq!(round(Rounding::Even), Some(Outcome { wrapped: -26, side: Side::Fits }));
/// ```
///
/// # Proved
///
/// ```text
/// ensures { IsOutcomeOfRow T.value T.SIGNED T.BITS
///     (units_of_float (X.float x) frac rounding) result }
/// ```
///
/// Definitions: [`IsOutcomeOfRow`], [`units_of_float`].
///
/// [`IsOutcomeOfRow`]: crate::definitions::word_standing
/// [`units_of_float`]: crate::definitions::float_rows
#[inline]
#[must_use]
pub fn from_float_round_of<X: Binary, T: RawWord>(
    x: X,
    frac: u32,
    rounding: Rounding,
) -> Option<Outcome<T>> {
    let wide = x.widened();
    match whole_near::<T>(wide, frac, rounding) {
        Some(whole) if T::BITS <= 32 || is_held::<T>(whole) => Some(outcome_of_held(whole)),
        _ => outcome_beside(wide, frac, rounding),
    }
}

/// Does the same for every `f64`: of words of 64 bits by two sums, if they hold it.
#[inline]
fn outcome_beside<T: RawWord>(x: f64, frac: u32, rounding: Rounding) -> Option<Outcome<T>> {
    match rounding {
        Rounding::Even if frac <= 64 && T::BITS > 32 && is_within::<T>(x, frac) => {
            Some(outcome_of_bits(x, frac))
        }
        _ => outcome_by_parts(x, frac, rounding),
    }
}

/// Returns the outcome of a float that the word holds, by two sums.
#[inline]
fn outcome_of_bits<T: RawWord>(x: f64, frac: u32) -> Outcome<T> {
    Outcome {
        wrapped: T::residue(false, bits_of_sums(x, frac) as u128),
        side: Side::Fits,
    }
}

/// Returns the outcome of a whole number in the range.
#[inline]
fn outcome_of_held<T: RawWord>(whole: i64) -> Outcome<T> {
    Outcome {
        wrapped: T::residue(false, whole.cast_unsigned() as u128),
        side: Side::Fits,
    }
}

/// Returns whether the number is in the range, by one comparison of how far it is above the least one.
#[inline]
fn is_held<T: RawWord>(number: i64) -> bool {
    let least = T::MIN.magnitude();
    let most = T::MAX.magnitude().min(i64::MAX.cast_unsigned());
    number.cast_unsigned().wrapping_add(least) <= least + most
}

/// Does the same for every `f64`, by its bits.
#[inline]
pub(crate) fn outcome_by_parts<T: RawWord>(
    x: f64,
    frac: u32,
    rounding: Rounding,
) -> Option<Outcome<T>> {
    let parts = parts_of(x)?;
    Some(outcome_of_parts(parts, frac, rounding))
}

/// Returns the outcome of `digits * 2^(scale + frac - LEAST)`, with the sign, rounded as named.
#[inline]
fn outcome_of_parts<T: RawWord>(parts: Parts, frac: u32, rounding: Rounding) -> Outcome<T> {
    outcome_of_size(parts.below_zero, magnitude_of_parts(parts, frac, rounding))
}

/// Returns the outcome of the magnitude with that sign. A branch on the sign would be slow.
#[inline]
fn outcome_of_size<T: RawWord>(below_zero: bool, magnitude: u128) -> Outcome<T> {
    let end: T = end_on(below_zero);
    Outcome {
        wrapped: T::residue(below_zero, magnitude),
        side: side_past(below_zero, magnitude > end.magnitude() as u128),
    }
}

/// Returns the side of a number with that sign, which fits unless it is past the end on its side.
#[inline]
fn side_past(below_zero: bool, past: bool) -> Side {
    if !past {
        Side::Fits
    } else if below_zero {
        Side::Below
    } else {
        Side::Above
    }
}

/// Returns the magnitude of `digits * 2^(scale + frac - LEAST)`, rounded as named with the sign. In place of one of
/// `2^64` or more, the result may be another such number with the same lowest 64 bits.
#[inline]
pub(crate) fn magnitude_of_parts(parts: Parts, frac: u32, rounding: Rounding) -> u128 {
    let up = parts.scale + frac as u64;
    if up <= LEAST {
        // After a shift by 63 places or more, only what the rounding adds is left.
        let by = (LEAST - up).min(63) as u32;
        lowered(parts.below_zero, parts.digits, by, rounding) as u128
    } else if up <= LEAST + 11 {
        // The digits are a whole number of less than 2^64 units.
        (parts.digits << (up - LEAST) as u32) as u128
    } else {
        // After a shift by 64 places or more, each word truncates to 0, and a number above 0 is out of range.
        let by = (up - LEAST).min(64) as u32;
        (parts.digits as u128) << by
    }
}
