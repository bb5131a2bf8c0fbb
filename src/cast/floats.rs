// Made by `make package` of crates/fixed_cast/src/floats.rt, which is proved: changes go there.

//! Conversions between floats and numbers of a format or integers.

use crate::cast::numeric::Numeric;
use crate::cast::source::Source;
use crate::convert::Castable;
use crate::float::{Binary, from_float_round_of, saturating_float_of, to_float_of};
use crate::word::{Outcome, Rounding};

impl Source for f32 {
    const DEFAULT: Rounding = Rounding::Even;

    #[inline]
    fn outcome<T: Castable>(self, frac: u32, rounding: Rounding) -> Option<Outcome<T>> {
        from_float_round_of(self, frac, rounding)
    }

    #[inline]
    #[track_caller]
    fn saturated<T: Castable>(self, frac: u32, rounding: Rounding) -> T {
        saturating_float_of(self, frac, rounding)
    }
}

impl Source for f64 {
    const DEFAULT: Rounding = Rounding::Even;

    #[inline]
    fn outcome<T: Castable>(self, frac: u32, rounding: Rounding) -> Option<Outcome<T>> {
        from_float_round_of(self, frac, rounding)
    }

    #[inline]
    #[track_caller]
    fn saturated<T: Castable>(self, frac: u32, rounding: Rounding) -> T {
        saturating_float_of(self, frac, rounding)
    }
}

/// Conversions of numbers of a format and integers to floats. (In `fixed` these are calls of `to_num`.)
pub trait ToFloat: Numeric {
    /// Returns the nearest float, ties to even.
    ///
    /// # Examples
    ///
    /// ```
    /// use zugyelmas::prelude::*;
    ///
    /// assert_eq!(FixedI8::<4>::from_bits(24).to_float::<f64>(), 1.5);
    /// // a tie
    /// assert_eq!(FixedI32::<0>::from_bits(16_777_217).to_float::<f32>(), 16_777_216.0);
    /// ```
    ///
    /// # Compile errors
    ///
    /// Compiles only if the fraction is at most the width.
    ///
    /// # Proved
    ///
    /// ```text
    /// requires { Self.FRACTION ≤ Self.Word.BITS }
    /// ensures { X.float result ≡ nearest_float X.format (Self.units self) Self.FRACTION }
    /// ```
    ///
    /// Definitions: [`nearest_float`].
    ///
    /// [`nearest_float`]: crate::definitions::float_rows
    #[must_use]
    fn to_float<X: Binary>(self) -> X;
}

impl<N: Numeric> ToFloat for N {
    #[inline]
    #[track_caller]
    fn to_float<X: Binary>(self) -> X {
        const {
            assert!(
                Self::FRACTION <= <Self::Word as crate::word::Valued>::BITS,
                "precondition: the fraction is at most the width"
            )
        };
        to_float_of(self.to_word(), N::FRACTION)
    }
}
