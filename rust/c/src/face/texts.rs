// Made by `make package` of crates/fixed_face/src/texts.rt, which is proved: changes go there.

//! Decimals, read and written. Numbers are bits, in units of `2^-frac`.

use crate::decimal::{DecimalError, decimal_of, shortest_places, write_decimal};
use crate::face::answer::Code;
use crate::face::rounded::rounding_of;
use crate::word::{Outcome, Rounding, Word};

/// A call that writes the text of a number, with its operands. The number is bits, in units of `2^-frac`.
pub enum TextCall<T> {
    /// The text of `a / 2^frac`, with `places` digits after the point, rounded as named: `a`, `frac`, `places`, and the
    /// number of the rounding.
    Print(T, u32, u32, u32),
    /// The shortest text that is read back as `a / 2^frac`: `a` and `frac`.
    Shortest(T, u32),
}

/// Returns the code of an error in a text.
#[inline]
fn code_of(error: DecimalError) -> Code {
    match error {
        DecimalError::NoDigits => Code::NoDigits,
        DecimalError::InvalidDigit(_) => Code::InvalidDigit,
        DecimalError::TooManyPoints => Code::TooManyPoints,
        DecimalError::Overflow | DecimalError::Inexact => Code::OutOfRange,
    }
}

/// Returns the number of a decimal in units of `2^-frac`, rounded as named. Fails with `FractionPastWidth` if `frac` is
/// greater than the width, with `NoRounding` if no rounding has the number `rounding`, and with `NoDigits`,
/// `InvalidDigit` or `TooManyPoints` if the text is not a decimal.
#[inline]
pub fn parse<T: Word>(text: &[u8], frac: u32, rounding: u32) -> Result<Outcome<T>, Code> {
    if frac > T::BITS {
        return Err(Code::FractionPastWidth);
    }
    let Some(rounding) = rounding_of(rounding) else {
        return Err(Code::NoRounding);
    };
    match decimal_of(text, frac, rounding) {
        Ok(outcome) => Ok(outcome),
        Err(error) => Err(code_of(error)),
    }
}

/// Writes the text of `a / 2^frac`, rounded as named to `places` digits after the point, and the byte 0 at the front of
/// the buffer, writes the length of the text, and returns 0. Fails with `FractionPastWidth` if `frac` is greater than
/// the width, with `TooManyPlaces` if `places` is greater than 64, with `NoRounding` if no rounding has the number
/// `rounding`, and with `NoRoom` if both do not fit: the length is then written, and the buffer is unchanged.
#[inline]
fn print<T: Word>(
    a: T,
    frac: u32,
    places: u32,
    rounding: u32,
    buffer: &mut [u8],
    length: &mut usize,
) -> i32 {
    if frac > T::BITS {
        return Code::FractionPastWidth.number();
    }
    if places > 64 {
        return Code::TooManyPlaces.number();
    }
    let Some(rounding) = rounding_of(rounding) else {
        return Code::NoRounding.number();
    };
    let mut text = [0; 86];
    let start = write_decimal(a, frac, places as usize, rounding, &mut text);
    put(&text[start..], buffer, length)
}

/// Writes the shortest text that is read back as `a / 2^frac`, to the nearest, ties to even, and the byte 0 at the
/// front of the buffer, writes the length of the text, and returns 0. Fails with `FractionPastWidth` if `frac` is
/// greater than the width, and with `NoRoom` if both do not fit: the length is then written, and the buffer is
/// unchanged.
#[inline]
fn shortest<T: Word>(a: T, frac: u32, buffer: &mut [u8], length: &mut usize) -> i32 {
    if frac > T::BITS {
        return Code::FractionPastWidth.number();
    }
    let mut text = [0; 86];
    let places = shortest_places(a, frac);
    let start = write_decimal(a, frac, places, Rounding::Even, &mut text);
    put(&text[start..], buffer, length)
}

/// Writes the text of a call, as [`print`] or [`shortest`] does.
#[inline(always)]
pub fn put_text<T: Word>(call: TextCall<T>, buffer: &mut [u8], length: &mut usize) -> i32 {
    match call {
        TextCall::Print(a, frac, places, by) => print(a, frac, places, by, buffer, length),
        TextCall::Shortest(a, frac) => shortest(a, frac, buffer, length),
    }
}

/// Writes a text and the byte 0 at the front of a buffer, writes the length of the text, and returns 0. Fails with
/// `NoRoom` if the buffer is too small for both: the length is written, and the buffer is unchanged.
fn put(text: &[u8], buffer: &mut [u8], length: &mut usize) -> i32 {
    *length = text.len();
    if text.len() >= buffer.len() {
        return Code::NoRoom.number();
    }
    buffer[..text.len()].copy_from_slice(text);
    buffer[text.len()] = 0;
    0
}
