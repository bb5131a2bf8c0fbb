// Made by `make package` of crates/fixed_word/src/outcome.rt, which is proved: changes go there.

//! Outcomes: a number that may not fit its word, given by the wrapped word and the side.

use crate::word::arithmetic::Arithmetic;
use crate::word::integer::Integer;
use crate::word::word::{RawWord, Valued, Word};

/// Where a number lies relative to the range of a word.
#[derive(Clone, Copy, PartialEq, Eq, Hash, Debug)]
pub enum Side {
    /// The number is in the range.
    Fits,
    /// The number is above the largest value.
    Above,
    /// The number is below the smallest value.
    Below,
}

/// Stands for an integer that may need more bits than any word has: the exact result of an operation.
#[derive(Clone, Copy, PartialEq, Eq, Hash, Debug)]
pub struct Outcome<T> {
    /// The word whose value differs from the number by a multiple of `2^n`, where n is the width.
    pub wrapped: T,
    /// Where the number lies.
    pub side: Side,
}

/// Returns the side of a number: `Fits` unless it is out of range, and then `Below` if it is too small.
#[inline]
pub(crate) fn side_past(past: bool, below: bool) -> Side {
    if !past {
        Side::Fits
    } else if below {
        Side::Below
    } else {
        Side::Above
    }
}

/// Returns the outcome of `magnitude`, or of `-magnitude` if `below_zero`.
///
/// # Examples
///
/// ```
/// use zugyelmas::word::{Outcome, Side, outcome_of};
///
/// assert_eq!(outcome_of(true, 128), Outcome { wrapped: -128_i8, side: Side::Fits });
/// assert_eq!(outcome_of(false, 128), Outcome { wrapped: -128_i8, side: Side::Above });
/// // -129 + 256
/// assert_eq!(outcome_of(true, 129), Outcome { wrapped: 127_i8, side: Side::Below });
/// ```
///
/// # Proved
///
/// ```text
/// ensures { StandsFor T.value T.SIGNED T.BITS (with_sign below_zero magnitude) result }
/// ```
///
/// Definitions: [`with_sign`].
///
/// [`with_sign`]: crate::definitions::word_format
#[must_use]
pub fn outcome_of<T: Word>(below_zero: bool, magnitude: u128) -> Outcome<T> {
    outcome_of_magnitude(below_zero, magnitude)
}

/// Returns the outcome of `magnitude`, or of `-magnitude` if `below_zero`: `outcome_of` for every word whose range is
/// known.
///
/// # Examples
///
/// ```
/// use zugyelmas::word::{Outcome, Side, outcome_of_magnitude};
///
/// assert_eq!(outcome_of_magnitude(true, 128), Outcome { wrapped: -128_i8, side: Side::Fits });
/// assert_eq!(outcome_of_magnitude(false, 200), Outcome { wrapped: -56_i8, side: Side::Above });
/// ```
///
/// # Proved
///
/// ```text
/// ensures { StandsFor T.value T.SIGNED T.BITS (with_sign below_zero magnitude) result }
/// ```
///
/// Definitions: [`with_sign`].
///
/// [`with_sign`]: crate::definitions::word_format
#[must_use]
pub fn outcome_of_magnitude<T: RawWord>(below_zero: bool, magnitude: u128) -> Outcome<T> {
    let wrapped = T::residue(below_zero, magnitude);
    let side = if below_zero {
        if magnitude <= T::MIN.magnitude() as u128 {
            Side::Fits
        } else {
            Side::Below
        }
    } else if magnitude <= T::MAX.magnitude() as u128 {
        Side::Fits
    } else {
        Side::Above
    };
    Outcome { wrapped, side }
}

/// Returns the outcome of the value of an integer.
///
/// # Examples
///
/// ```
/// use zugyelmas::word::{Outcome, Side, outcome_of_whole};
///
/// assert_eq!(outcome_of_whole(127_i16), Outcome { wrapped: 127_i8, side: Side::Fits });
/// assert_eq!(outcome_of_whole(128_i16), Outcome { wrapped: -128_i8, side: Side::Above });
/// ```
///
/// # Proved
///
/// ```text
/// ensures { StandsFor T.value T.SIGNED T.BITS (T.Whole.value whole) result }
/// ```
#[inline]
#[must_use]
pub fn outcome_of_whole<T: Word>(whole: T::Whole) -> Outcome<T> {
    if T::BITS < 32 {
        outcome_by_ends(whole)
    } else {
        outcome_of_kept(whole, whole.is_below_zero())
    }
}

/// Returns the outcome of the value of an integer, by both ends of the range. Loops over words of 8 and 16 bits
/// saturate such a number in one instruction.
#[inline]
fn outcome_by_ends<T: Word>(whole: T::Whole) -> Outcome<T> {
    let wrapped = T::cut(whole);
    let side = side_between(whole, T::MIN.whole(), T::MAX.whole());
    Outcome { wrapped, side }
}

/// Returns where a number lies relative to the range from `least` to `greatest`.
#[inline]
fn side_between<I: Integer>(number: I, least: I, greatest: I) -> Side {
    if greatest.is_below(number) {
        Side::Above
    } else if number.is_below(least) {
        Side::Below
    } else {
        Side::Fits
    }
}

/// Returns the outcome of each number of which the integer keeps `kept`, and which either fits or is negative if and
/// only if `below`.
///
/// # Examples
///
/// ```
/// use zugyelmas::word::{Outcome, Side, outcome_of_kept};
///
/// assert_eq!(outcome_of_kept(127_i16, false), Outcome { wrapped: 127_i8, side: Side::Fits });
/// // Numbers above 2^15 of which 200 is left, such as 2^16 + 200.
/// assert_eq!(outcome_of_kept(200_i16, false), Outcome { wrapped: -56_i8, side: Side::Above });
/// ```
///
/// # Proved
///
/// ```text
/// ensures { (x : ℤ) → IsKept T.SIGNED T.BITS x (T.Whole.value kept)
///     → (¬ InRange T.SIGNED T.BITS x → IsTrue below ↔ (x <ℤ pos 0))
///     → StandsFor T.value T.SIGNED T.BITS x result }
/// ```
///
/// Definitions: [`InRange`].
///
/// [`InRange`]: crate::definitions::word_format
#[inline]
#[must_use]
pub fn outcome_of_kept<T: Word>(kept: T::Whole, below: bool) -> Outcome<T> {
    let wrapped = T::cut(kept);
    let side = side_past(!wrapped.whole().equals(kept), below);
    Outcome { wrapped, side }
}
