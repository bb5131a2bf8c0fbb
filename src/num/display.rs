// Made by `make package` of crates/fixed_num/src/display.rt, which is proved: changes go there.

//! Numbers as text.

use crate::decimal::{pad_number, shortest_places, write_decimal};
use crate::num::format::Fixed;
use crate::word::{RawWord, Rounding};
use core::{fmt, str};

/// Writes the shortest decimal that is read back as the number. With a precision, writes that many digits after the
/// point, rounded to the nearest, ties to even. Sign, width and fill work as for integers. Fails if F is greater than
/// the width.
impl<T: RawWord, const F: u32> fmt::Display for Fixed<T, F> {
    fn fmt(&self, f: &mut fmt::Formatter<'_>) -> fmt::Result {
        if F > T::BITS {
            return Err(fmt::Error);
        }
        let shown = places_for(self.bits, F, f.precision());
        let places = shown.min(64);
        let mut buffer = [0; 86];
        let start = write_decimal(self.bits, F, places, Rounding::Even, &mut buffer);
        let below_zero = self.bits.is_below_zero();
        let from = start + usize::from(below_zero);
        match str::from_utf8(&buffer[from..]) {
            // Digits past the 64th behind the point are zeros.
            Ok(digits) => pad_number(f, below_zero, "", digits, shown - places),
            Err(_) => Err(fmt::Error),
        }
    }
}

/// Writes the value, as `{}` does.
impl<T: RawWord, const F: u32> fmt::Debug for Fixed<T, F> {
    fn fmt(&self, f: &mut fmt::Formatter<'_>) -> fmt::Result {
        fmt::Display::fmt(self, f)
    }
}

/// Text without a formatter. Each call writes the text at the end of the buffer, and returns the index at which it
/// begins. (`fixed` does not have these calls.)
impl<T: RawWord, const F: u32> Fixed<T, F> {
    /// Writes the shortest decimal that is read back as the number, and returns where it begins. Precondition: F is
    /// at most the width.
    ///
    /// # Examples
    ///
    /// ```
    /// use zugyelmas::prelude::*;
    /// use zugyelmas::word::Rounding;
    /// let number = FixedI8::<4>::from_bits(-2); // -0.125
    /// let buffer = &mut [0; 86];
    ///
    /// let start = number.write_decimal(buffer);
    /// assert_eq!(&buffer[start..], b"-0.1"); // -1.6 units, and so read as -0.125
    /// ```
    ///
    /// # Compile errors
    ///
    /// Compiles only if the fraction F is at most the width.
    ///
    /// # Proved
    ///
    /// ```text
    /// requires { F ≤ T.BITS }
    /// ensures within { result ≤ 86 }
    /// ensures text { drop result buffer.new ≡ text_of (T.value self.bits) F (shortest (T.value self.bits) F) Even }
    /// ```
    ///
    /// Definitions: [`shortest`], [`text_of`].
    ///
    /// [`shortest`]: crate::definitions::decimal_text
    /// [`text_of`]: crate::definitions::decimal_text
    #[track_caller]
    pub fn write_decimal(self, buffer: &mut [u8; 86]) -> usize {
        const {
            assert!(
                F <= T::BITS,
                "precondition: the fraction F is at most the width"
            )
        };
        let places = shortest_places(self.bits, F);
        write_decimal(self.bits, F, places, Rounding::Even, buffer)
    }

    /// Writes that many digits after the point, rounded as named, and returns where the text begins. Preconditions: F
    /// is at most the width, and at most 64 digits after the point are requested.
    ///
    /// # Examples
    ///
    /// ```
    /// use zugyelmas::prelude::*;
    /// use zugyelmas::word::Rounding;
    /// let number = FixedI8::<4>::from_bits(-2); // -0.125
    /// let buffer = &mut [0; 86];
    ///
    /// let start = number.write_decimal_places(3, Rounding::Even, buffer);
    /// assert_eq!(&buffer[start..], b"-0.125");
    /// let start = number.write_decimal_places(1, Rounding::Down, buffer);
    /// assert_eq!(&buffer[start..], b"-0.2");
    /// ```
    ///
    /// ```should_panic
    /// # use zugyelmas::prelude::*;
    /// # use zugyelmas::word::Rounding;
    /// # let number = FixedI8::<4>::from_bits(-2); // -0.125
    /// # let buffer = &mut [0; 86];
    /// # std::panic::set_hook(Box::new(|_| {}));
    /// number.write_decimal_places(65, Rounding::Even, buffer); // more than 64 digits
    /// ```
    ///
    /// # Compile errors
    ///
    /// Compiles only if the fraction F is at most the width.
    ///
    /// # Panics
    ///
    /// Panics unless there are at most 64 digits after the point.
    ///
    /// # Proved
    ///
    /// ```text
    /// requires fraction { F ≤ T.BITS }
    /// requires places { places ≤ 64 }
    /// ensures within { result ≤ 86 }
    /// ensures text { drop result buffer.new ≡ text_of (T.value self.bits) F places rounding }
    /// ```
    ///
    /// Definitions: [`text_of`].
    ///
    /// [`text_of`]: crate::definitions::decimal_text
    #[track_caller]
    pub fn write_decimal_places(
        self,
        places: usize,
        rounding: Rounding,
        buffer: &mut [u8; 86],
    ) -> usize {
        const {
            assert!(
                F <= T::BITS,
                "precondition: the fraction F is at most the width"
            )
        };
        assert!(
            places <= 64,
            "precondition: there are at most 64 digits after the point"
        );
        write_decimal(self.bits, F, places, rounding, buffer)
    }
}

/// Returns how many digits after the point a number has with that precision.
fn places_for<T: RawWord>(bits: T, frac: u32, precision: Option<usize>) -> usize {
    match precision {
        Some(places) => places,
        None => shortest_places(bits, frac),
    }
}
