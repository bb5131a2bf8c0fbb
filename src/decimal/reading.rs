// Made by `make package` of crates/fixed_decimal/src/reading.rt, which is proved: changes go there.

//! Reading the number of a decimal, in units of a format.

use crate::decimal::error::DecimalError;
use crate::decimal::halves::rounded_halves;
use crate::decimal::numeral::{PART, point_of, short_decimal, sign_of, value_of};
use crate::decimal::tens::ten_to;
use crate::word::{Outcome, RawWord, Rounding, outcome_of_magnitude};

/// Returns the outcome of the number of a decimal in units of `2^-frac`, rounded as named. Fails if the text is not a
/// decimal. Precondition: `frac` is at most the width.
///
/// # Examples
///
/// ```
/// use zugyelmas::decimal::{DecimalError, decimal_of};
/// use zugyelmas::word::{Outcome, Rounding, Side};
///
/// let read = |text: &[u8]| decimal_of::<i8>(text, 4, Rounding::Even);
/// assert_eq!(read(b"1.5"), Ok(Outcome { wrapped: 24, side: Side::Fits }));
/// // -0.5 units, a tie
/// assert_eq!(read(b"-.03125"), Ok(Outcome { wrapped: 0, side: Side::Fits }));
/// // 9 does not fit
/// assert_eq!(read(b"9"), Ok(Outcome { wrapped: -112, side: Side::Above }));
/// assert_eq!(read(b"-"), Err(DecimalError::NoDigits));
/// ```
///
/// ```should_panic
/// # use zugyelmas::decimal::{DecimalError, decimal_of};
/// # use zugyelmas::word::{Outcome, Rounding, Side};
/// # std::panic::set_hook(Box::new(|_| {}));
/// decimal_of::<i8>(b"1.5", 9, Rounding::Even); // the fraction is above the width
/// ```
///
/// # Panics
///
/// Panics unless the fraction frac is at most the width.
///
/// # Proved
///
/// ```text
/// requires { frac ≤ T.BITS }
/// ensures { IsOutcomeOf T.value T.SIGNED T.BITS (decimal_row text.now frac rounding) result }
/// ```
///
/// Definitions: [`decimal_row`], [`IsOutcomeOf`].
///
/// [`decimal_row`]: crate::definitions::decimal_decimal
/// [`IsOutcomeOf`]: crate::definitions::decimal_rows
#[track_caller]
pub fn decimal_of<T: RawWord>(
    text: &[u8],
    frac: u32,
    rounding: Rounding,
) -> Result<Outcome<T>, DecimalError> {
    assert!(
        frac <= T::BITS,
        "precondition: the fraction frac is at most the width"
    );
    match magnitude_of(text, frac, rounding) {
        Ok((below_zero, magnitude)) => Ok(outcome_of_magnitude(below_zero, magnitude)),
        Err(error) => Err(error),
    }
}

/// Returns the sign and the magnitude of the number of a decimal in units of `2^-frac`, rounded as named. A magnitude
/// of `2^64` or more may be another such number with the same lowest 64 bits.
#[inline(always)]
pub(crate) const fn magnitude_of(
    text: &[u8],
    frac: u32,
    rounding: Rounding,
) -> Result<(bool, u128), DecimalError> {
    let (below_zero, bytes) = sign_of(text);
    if let Some((value, places)) = short_decimal(bytes) {
        let magnitude = rounded_quotient(value, ten_to(places), frac, below_zero, rounding);
        return Ok((below_zero, magnitude));
    }
    match point_of(bytes, text.len() - bytes.len()) {
        Ok(point) => {
            let whole = units_of(bytes, point, frac);
            let (halves, rest) = halves_of(bytes, smaller(point + 1, bytes.len()), frac);
            let magnitude = rounded_halves(2 * whole + halves, rest, below_zero, rounding);
            Ok((below_zero, magnitude))
        }
        Err(error) => Err(error),
    }
}

/// Returns `value / by` in units of `2^-frac`, rounded as named. The quotient is negative if `below_zero`. Numbers of at
/// most 64 bits stay in 64 bits up to the end, which is faster.
#[inline(always)]
const fn rounded_quotient(
    value: u64,
    by: u64,
    frac: u32,
    below_zero: bool,
    rounding: Rounding,
) -> u128 {
    if frac < 63 && value < 1 << (63 - frac) {
        let twice = value << (frac + 1);
        rounded_halves((twice / by) as u128, twice % by != 0, below_zero, rounding)
    } else {
        let (halves, rest) = divided((value as u128) << (frac + 1), by);
        rounded_halves(halves, rest, below_zero, rounding)
    }
}

/// Returns the outcome of the number of a decimal in units of `2^-frac`. Fails if the text is not a decimal, or if its
/// number is not a whole number of units. Precondition: `frac` is at most the width.
///
/// # Examples
///
/// ```
/// use zugyelmas::decimal::{DecimalError, exact_decimal_of};
/// use zugyelmas::word::{Outcome, Side};
///
/// assert_eq!(exact_decimal_of::<i8>(b"1.50", 4), Ok(Outcome { wrapped: 24, side: Side::Fits }));
/// // 24.16 units
/// assert_eq!(exact_decimal_of::<i8>(b"1.51", 4), Err(DecimalError::Inexact));
/// ```
///
/// ```should_panic
/// # use zugyelmas::decimal::{DecimalError, exact_decimal_of};
/// # use zugyelmas::word::{Outcome, Side};
/// # std::panic::set_hook(Box::new(|_| {}));
/// exact_decimal_of::<i8>(b"1.5", 9); // the fraction is above the width
/// ```
///
/// # Panics
///
/// Panics unless the fraction frac is at most the width.
///
/// # Proved
///
/// ```text
/// requires { frac ≤ T.BITS }
/// ensures { IsOutcomeOf T.value T.SIGNED T.BITS (exact_row text.now frac) result }
/// ```
///
/// Definitions: [`exact_row`], [`IsOutcomeOf`].
///
/// [`exact_row`]: crate::definitions::decimal_decimal
/// [`IsOutcomeOf`]: crate::definitions::decimal_rows
#[track_caller]
pub fn exact_decimal_of<T: RawWord>(text: &[u8], frac: u32) -> Result<Outcome<T>, DecimalError> {
    assert!(
        frac <= T::BITS,
        "precondition: the fraction frac is at most the width"
    );
    match decimal_of(text, frac, Rounding::Zero) {
        Ok(outcome) => {
            if is_exact(text, frac) {
                Ok(outcome)
            } else {
                Err(DecimalError::Inexact)
            }
        }
        Err(error) => Err(error),
    }
}

/// Returns whether the number of a decimal is a whole number of units of `2^-frac`. Of other texts, the result says
/// nothing.
#[inline]
const fn is_exact(text: &[u8], frac: u32) -> bool {
    let bytes = sign_of(text).1;
    match point_of(bytes, text.len() - bytes.len()) {
        Ok(point) => {
            let (halves, rest) = halves_of(bytes, smaller(point + 1, bytes.len()), frac);
            halves % 2 == 0 && !rest
        }
        Err(_) => false,
    }
}

/// Returns the number if it is below `2^64`, and otherwise a number of at least `2^64` with the same lowest 64 bits.
#[inline]
const fn fold(number: u128) -> u128 {
    if number < 1 << 64 {
        number
    } else {
        (1 << 64) + number % (1 << 64)
    }
}

/// Returns the smaller of two counts.
#[inline]
const fn smaller(a: usize, b: usize) -> usize {
    if a < b { a } else { b }
}

/// Returns the number that the digits before the point write, times `2^frac`. If that is `2^64` or more, returns a
/// number of at least `2^64` with the same lowest 64 bits.
#[inline]
const fn units_of(bytes: &[u8], point: usize, frac: u32) -> u128 {
    let mut units = 0;
    let mut start = 0;
    while start < point {
        let count = smaller(point - start, PART);
        let more = (value_of(bytes, start, count) as u128) << frac;
        units = fold(units * ten_to(count) as u128 + more);
        start += count;
    }
    units
}

/// Returns twice the fraction that the digits from `from` on write after the point, times `2^frac`, rounded down, and
/// whether that leaves a rest. The digits are read from the last one on, so that each one counts.
#[inline]
const fn halves_of(bytes: &[u8], from: usize, frac: u32) -> (u128, bool) {
    let mut halves = 0;
    let mut rest = false;
    let mut end = bytes.len() - from;
    while end > 0 {
        let count = smaller(end, PART);
        end -= count;
        let number = ((value_of(bytes, from + end, count) as u128) << (frac + 1)) + halves;
        let (quotient, left) = divided(number, ten_to(count));
        halves = quotient;
        rest = rest || left;
    }
    (halves, rest)
}

/// Returns the quotient, rounded down, and whether there is a remainder. A number of at most 64 bits is divided in 64
/// bits, since a division of 128 bits takes many times as long.
#[inline]
const fn divided(number: u128, by: u64) -> (u128, bool) {
    if number < 1 << 64 {
        let number = number as u64;
        ((number / by) as u128, number % by != 0)
    } else {
        let by = by as u128;
        let quotient = number / by;
        (quotient, number - quotient * by != 0)
    }
}
