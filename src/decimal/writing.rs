// Made by `make package` of crates/fixed_decimal/src/writing.rt, which is proved: changes go there.

//! Writing a number with a given number of digits after the point.

use crate::decimal::halves::{low_bits, rounded_halves};
use crate::decimal::numeral::PART;
use crate::decimal::tens::ten_to;
use crate::digits::decimal_before;
use crate::word::{RawWord, Rounding};

/// Writes the text of a number in units of `2^-frac`, rounded as named to `places` digits after the point, at the end
/// of the buffer, and returns where it begins. The text of a number below 0 begins with a minus, even if the number is
/// rounded to 0. No text is longer than a minus, 20 digits, a point and 64 digits. Preconditions: `frac` is at most the
/// width, and `places` is at most 64.
///
/// # Examples
///
/// ```
/// use zugyelmas::decimal::write_decimal;
/// use zugyelmas::word::Rounding;
/// let buffer = &mut [0; 86];
///
/// let start = write_decimal(24_i8, 4, 2, Rounding::Even, buffer);
/// assert_eq!(&buffer[start..], b"1.50");
/// let start = write_decimal(-2_i8, 4, 2, Rounding::Even, buffer); // -0.125, a tie
/// assert_eq!(&buffer[start..], b"-0.12");
/// ```
///
/// ```should_panic
/// # use zugyelmas::decimal::write_decimal;
/// # use zugyelmas::word::Rounding;
/// # let buffer = &mut [0; 86];
/// # std::panic::set_hook(Box::new(|_| {}));
/// write_decimal(24_i8, 4, 65, Rounding::Even, buffer); // more than 64 digits
/// ```
///
/// # Panics
///
/// Panics unless the fraction frac is at most the width, and there are at most 64 digits after the point.
///
/// # Proved
///
/// ```text
/// requires frac { frac ≤ T.BITS }
/// requires places { places ≤ 64 }
/// ensures within { result ≤ 86 }
/// ensures text { drop result buffer.new ≡ text_of (T.value number) frac places rounding }
/// ```
///
/// Definitions: [`text_of`].
///
/// [`text_of`]: crate::definitions::decimal_text
#[track_caller]
pub fn write_decimal<T: RawWord>(
    number: T,
    frac: u32,
    places: usize,
    rounding: Rounding,
    buffer: &mut [u8; 86],
) -> usize {
    assert!(
        frac <= T::BITS,
        "precondition: the fraction frac is at most the width"
    );
    assert!(
        places <= 64,
        "precondition: there are at most 64 digits after the point"
    );
    let below_zero = number.is_below_zero();
    let start = write_magnitude(
        number.magnitude(),
        frac,
        places,
        below_zero,
        rounding,
        buffer,
    );
    if below_zero {
        buffer[start - 1] = b'-';
        start - 1
    } else {
        start
    }
}

/// Writes the text of a magnitude, rounded as named, and returns where it begins. The number is negative if
/// `below_zero`.
fn write_magnitude(
    magnitude: u64,
    frac: u32,
    places: usize,
    below_zero: bool,
    rounding: Rounding,
    buffer: &mut [u8; 86],
) -> usize {
    let units = u128::from(magnitude);
    if places == 0 {
        let rest = low_bits(2 * units, frac) != 0;
        let number = rounded_halves((2 * units) >> frac, rest, below_zero, rounding);
        return decimal_before(number as u64, buffer, 86);
    }
    let part = low_bits(units, frac);
    let carry = put_part(part, frac, places, below_zero, rounding, buffer, 86);
    let point = 86 - places - 1;
    buffer[point] = b'.';
    decimal_before((units >> frac) as u64 + carry, buffer, point)
}

/// Writes `places` digits of a number below 1, in units of `2^-frac`, rounded as named, so that they end before `end`.
/// Returns the carry: 1 if the number is rounded to 1, and otherwise 0. The byte before the digits is overwritten.
fn put_part(
    part: u128,
    frac: u32,
    places: usize,
    below_zero: bool,
    rounding: Rounding,
    buffer: &mut [u8],
    end: usize,
) -> u64 {
    if places <= PART {
        let scaled = part * u128::from(ten_to(places));
        let rest = low_bits(2 * scaled, frac) != 0;
        let number = rounded_halves((2 * scaled) >> frac, rest, below_zero, rounding);
        return put_digits(number as u64, places, buffer, end);
    }
    let scaled = part * u128::from(ten_to(PART));
    let part = low_bits(scaled, frac);
    let more = put_part(part, frac, places - PART, below_zero, rounding, buffer, end);
    put_digits(
        (scaled >> frac) as u64 + more,
        PART,
        buffer,
        end - (places - PART),
    )
}

/// Writes the last `count` digits of a number so that they end before `end`, and returns the number that the digits
/// before these write. The byte before the digits is overwritten.
#[inline]
fn put_digits(number: u64, count: usize, buffer: &mut [u8], end: usize) -> u64 {
    let tens = ten_to(count);
    decimal_before(tens + number % tens, buffer, end);
    number / tens
}
