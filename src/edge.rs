//! What Rust expects of numbers and replies, and the proved language does not say: operators on references, sums and
//! products of iterators, the traits of other bases and of exponents, and replies as results. Nothing here is proved:
//! each call forwards to a proved one, but for exponents, which are written from the digits of a proved text.

use crate::decimal::{exact_places, shortest_places, write_decimal};
use crate::filter::Reply;
use crate::poly::PolyReply;
use crate::radix::{Base, InBase};
use crate::word::Rounding;
use crate::{Constants, Fixed, Word};
use core::fmt::{self, Alignment, Write};
use core::iter::{Product, Sum};
use core::str;

mod references;

/// The number in base 2, as `InBase` prints it.
impl<T: Word, const F: u32> fmt::Binary for Fixed<T, F> {
    fn fmt(&self, f: &mut fmt::Formatter<'_>) -> fmt::Result {
        in_base(self, Base::Binary, f)
    }
}

/// The number in base 8, as `InBase` prints it.
impl<T: Word, const F: u32> fmt::Octal for Fixed<T, F> {
    fn fmt(&self, f: &mut fmt::Formatter<'_>) -> fmt::Result {
        in_base(self, Base::Octal, f)
    }
}

/// The number in base 16, as `InBase` prints it.
impl<T: Word, const F: u32> fmt::LowerHex for Fixed<T, F> {
    fn fmt(&self, f: &mut fmt::Formatter<'_>) -> fmt::Result {
        in_base(self, Base::LowerHex, f)
    }
}

/// The number in base 16 with capitals, as `InBase` prints it.
impl<T: Word, const F: u32> fmt::UpperHex for Fixed<T, F> {
    fn fmt(&self, f: &mut fmt::Formatter<'_>) -> fmt::Result {
        in_base(self, Base::UpperHex, f)
    }
}

fn in_base<T: Word, const F: u32>(
    number: &Fixed<T, F>,
    base: Base,
    f: &mut fmt::Formatter<'_>,
) -> fmt::Result {
    let number = *number;
    fmt::Display::fmt(&InBase { number, base }, f)
}

/// The number as one digit, a point, digits and an exponent of 10: without a precision the digits of `{}`, and with one
/// that many digits after the point, of the exact value, rounded to the nearest, ties to even. Sign, width and fill work
/// as for floats. Fails if F is greater than the width.
///
/// This is not proved, but was tested beside floats.
///
/// ```
/// use zugyelmas::prelude::*;
///
/// let number = FixedI32::<16>::lit("-1234.5");
/// assert_eq!(format!("{number:e} {number:.2e} {number:.0e}"), "-1.2345e3 -1.23e3 -1e3");
/// let unit = FixedU32::<32>::DELTA; // 1/4294967296
/// assert_eq!(format!("{unit:e} {unit:.5e}"), "2e-10 2.32831e-10");
/// ```
impl<T: Word, const F: u32> fmt::LowerExp for Fixed<T, F> {
    fn fmt(&self, f: &mut fmt::Formatter<'_>) -> fmt::Result {
        with_exponent(self, 'e', f)
    }
}

/// As `{:e}`, with a capital `E`.
///
/// ```
/// use zugyelmas::prelude::*;
///
/// let number = FixedI32::<16>::lit("0.375");
/// assert_eq!(format!("{number:E} {number:+.1E} {number:010E}"), "3.75E-1 +3.8E-1 0003.75E-1");
/// ```
impl<T: Word, const F: u32> fmt::UpperExp for Fixed<T, F> {
    fn fmt(&self, f: &mut fmt::Formatter<'_>) -> fmt::Result {
        with_exponent(self, 'E', f)
    }
}

fn with_exponent<T: Word, const F: u32>(
    number: &Fixed<T, F>,
    letter: char,
    f: &mut fmt::Formatter<'_>,
) -> fmt::Result {
    if F > T::BITS {
        return Err(fmt::Error);
    }
    let bits = number.bits;
    let places = match f.precision() {
        Some(_) => exact_places(bits, F),
        None => shortest_places(bits, F),
    };
    let mut buffer = [0; 86];
    let start = write_decimal(bits, F, places, Rounding::Even, &mut buffer);
    let text = &mut buffer[start + usize::from(bits.is_below_zero())..];
    let scientific = Scientific::new(text, f.precision(), letter)?;
    scientific.pad(bits.is_below_zero(), f)
}

/// A number as it is written with an exponent, without its sign.
struct Scientific<'a> {
    /// The digits from the first that is not 0 on, and how many zeros follow them.
    digits: &'a str,
    zeros: usize,
    letter: char,
    /// The exponent of 10 of the first digit.
    exponent: i32,
}

impl<'a> Scientific<'a> {
    /// The number of a decimal without a sign, which has that many digits after the point if a precision is given.
    fn new(text: &'a mut [u8], precision: Option<usize>, letter: char) -> Result<Self, fmt::Error> {
        let (digits, exponent) = significant(text);
        let (length, is_carried) = match precision {
            Some(places) => rounded(digits, places.saturating_add(1)),
            None => (without_zeros(digits), false),
        };
        let digits = str::from_utf8(&digits[..length]).map_err(|_| fmt::Error)?;
        Ok(Scientific {
            digits,
            zeros: precision.map_or(0, |places| places.saturating_add(1) - length),
            letter,
            exponent: exponent + i32::from(is_carried),
        })
    }

    /// How many letters it has.
    fn length(&self) -> usize {
        let point = usize::from(self.has_point());
        let sign = usize::from(self.exponent < 0);
        let exponent = if self.exponent.abs() < 10 { 1 } else { 2 };
        let zeros = self.zeros;
        zeros.saturating_add(self.digits.len() + point + 1 + sign + exponent)
    }

    fn has_point(&self) -> bool {
        self.digits.len() > 1 || self.zeros > 0
    }

    /// Writes it between its fill, as floats are.
    fn pad(&self, below_zero: bool, f: &mut fmt::Formatter<'_>) -> fmt::Result {
        let sign = match (below_zero, f.sign_plus()) {
            (true, _) => "-",
            (false, true) => "+",
            (false, false) => "",
        };
        let width = f.width().unwrap_or(0);
        let padding = width
            .saturating_sub(self.length())
            .saturating_sub(sign.len());
        let (before, zeros) = match f.align() {
            _ if f.sign_aware_zero_pad() => (0, padding),
            Some(Alignment::Left) => (0, 0),
            Some(Alignment::Center) => (padding / 2, 0),
            _ => (padding, 0),
        };
        let fill = f.fill();
        repeat(fill, before, f)?;
        f.write_str(sign)?;
        repeat('0', zeros, f)?;
        self.write(f)?;
        repeat(fill, padding - before - zeros, f)
    }

    fn write(&self, f: &mut fmt::Formatter<'_>) -> fmt::Result {
        let (first, rest) = self.digits.split_at(1);
        f.write_str(first)?;
        if self.has_point() {
            f.write_char('.')?;
        }
        f.write_str(rest)?;
        repeat('0', self.zeros, f)?;
        write!(f, "{}{}", self.letter, self.exponent)
    }
}

fn repeat(sign: char, count: usize, f: &mut fmt::Formatter<'_>) -> fmt::Result {
    (0..count).try_for_each(|_| f.write_char(sign))
}

/// The digits of a decimal from the first that is not 0 on, and the exponent of 10 of that digit; of 0 one digit.
fn significant(text: &mut [u8]) -> (&mut [u8], i32) {
    let point = text.iter().position(|sign| *sign == b'.');
    let whole = point.unwrap_or(text.len());
    let digits = match point {
        Some(point) => {
            text[..=point].rotate_right(1);
            &mut text[1..]
        }
        None => text,
    };
    match digits.iter().position(|digit| *digit != b'0') {
        Some(zeros) => (&mut digits[zeros..], whole as i32 - 1 - zeros as i32),
        None => (&mut digits[..1], 0),
    }
}

/// How many digits are left without the zeros at the end: at least one.
fn without_zeros(digits: &[u8]) -> usize {
    let last = digits.iter().rposition(|digit| *digit != b'0');
    last.unwrap_or(0) + 1
}

/// Rounds to at most so many digits, to the nearest, ties to even, and returns how many there are then, and whether
/// the first is 10 times as much as before.
fn rounded(digits: &mut [u8], most: usize) -> (usize, bool) {
    let length = most.min(digits.len());
    let (kept, rest) = digits.split_at_mut(length);
    let is_odd = kept[length - 1] % 2 == 1;
    let is_up = match rest {
        [] => false,
        [b'5', rest @ ..] => is_odd || rest.iter().any(|digit| *digit != b'0'),
        [first, ..] => *first > b'5',
    };
    (length, is_up && carries(kept))
}

/// Adds 1 to the last digit, and returns whether all were 9, of which 1 and zeros are made.
fn carries(digits: &mut [u8]) -> bool {
    for digit in digits.iter_mut().rev() {
        if *digit < b'9' {
            *digit += 1;
            return false;
        }
        *digit = b'0';
    }
    digits[0] = b'1';
    true
}

/// The sum of the numbers, from 0 on and in their order, by the operator `+`.
impl<T: Word, const F: u32> Sum for Fixed<T, F> {
    #[track_caller]
    fn sum<I: Iterator<Item = Self>>(numbers: I) -> Self {
        numbers.fold(Fixed::ZERO, |sum, number| sum + number)
    }
}

impl<'a, T: Word, const F: u32> Sum<&'a Self> for Fixed<T, F> {
    #[track_caller]
    fn sum<I: Iterator<Item = &'a Self>>(numbers: I) -> Self {
        numbers.copied().sum()
    }
}

/// The product of the numbers, from the first on and in their order, by the operator `*`; of no numbers the number 1.
impl<T: Word, const F: u32> Product for Fixed<T, F> {
    #[track_caller]
    fn product<I: Iterator<Item = Self>>(mut numbers: I) -> Self {
        match numbers.next() {
            Some(first) => numbers.fold(first, |product, number| product * number),
            None => Fixed::one(),
        }
    }
}

impl<'a, T: Word, const F: u32> Product<&'a Self> for Fixed<T, F> {
    #[track_caller]
    fn product<I: Iterator<Item = &'a Self>>(numbers: I) -> Self {
        numbers.copied().product()
    }
}

/// The value, or the index of the coefficient whose step does not fit.
impl<T> From<PolyReply<T>> for Result<T, usize> {
    fn from(reply: PolyReply<T>) -> Self {
        match reply {
            PolyReply::Value(value) => Ok(value),
            PolyReply::Overflow(step) => Err(step),
        }
    }
}

/// The output, or the index of the tap whose partial sum does not fit.
impl<T> From<Reply<T>> for Result<T, usize> {
    fn from(reply: Reply<T>) -> Self {
        match reply {
            Reply::Value(output) => Ok(output),
            Reply::Overflow(tap) => Err(tap),
        }
    }
}
