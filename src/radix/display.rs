// Made by `make package` of crates/fixed_radix/src/display.rt, which is proved: changes go there.

//! Printing a number in a base.

use crate::decimal::pad_number;
use crate::num::Fixed;
use crate::radix::bases::{Base, digit_bits, is_upper, prefix_of};
use crate::radix::digits::put_number;
use crate::radix::places::{exact_places, in_units};
use crate::word::RawWord;
use core::{fmt, str};

/// A number that is printed in a base: exactly, or, if the formatter has a precision, with that many digits after the
/// point, rounded to the nearest, ties to even. Sign, prefix, width and fill are those of integers. Printing fails if
/// `F` is greater than the width.
#[derive(Clone, Copy)]
pub struct InBase<T: RawWord, const F: u32> {
    /// The number.
    pub number: Fixed<T, F>,
    /// The base.
    pub base: Base,
}

impl<T: RawWord, const F: u32> fmt::Display for InBase<T, F> {
    fn fmt(&self, f: &mut fmt::Formatter<'_>) -> fmt::Result {
        if F > T::BITS {
            return Err(fmt::Error);
        }
        let number = self.number.bits;
        let bits = digit_bits(self.base);
        let size = number.magnitude();
        let exact = exact_places(size, F, bits) as usize;
        let shown = f.precision().unwrap_or(exact);
        let places = shown.min(exact.max(1));
        let units = in_units(size, F, bits * places as u32);
        let mut buffer = [0; 130];
        let start = put_number(units, bits, is_upper(self.base), places, &mut buffer);
        match str::from_utf8(&buffer[start..]) {
            // Digits after the exact ones are zeros.
            Ok(digits) => pad_number(
                f,
                number.is_below_zero(),
                prefix_of(self.base),
                digits,
                shown - places,
            ),
            Err(_) => Err(fmt::Error),
        }
    }
}
