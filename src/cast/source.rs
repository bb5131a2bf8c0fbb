// Made by `make package` of crates/fixed_cast/src/source.rt, which is proved: changes go there.

//! What conversions take.

use crate::cast::numeric::Numeric;
use crate::convert::{Castable, convert_round_of, saturating_convert_of};
use crate::word::{Outcome, Rounding};

/// A value that conversions take: a number of a format, an integer, a float or a `bool`. (`fixed` does not have this
/// trait.)
pub trait Source: Copy {
    /// The rounding of conversions that do not name one.
    const DEFAULT: Rounding;

    /// Returns the outcome of the number in units of `2^-frac`, rounded, or `None` if there is no number, as for a
    /// NaN.
    ///
    /// # Examples
    ///
    /// ```
    /// use zugyelmas::Source;
    /// use zugyelmas::prelude::*;
    /// use zugyelmas::word::{Outcome, Rounding, Side};
    /// let number = FixedI8::<4>::from_bits(40); // 2.5
    ///
    /// assert_eq!(number.outcome(8, Rounding::Down), Some(Outcome { wrapped: 640_i16, side: Side::Fits }));
    /// // a tie
    /// assert_eq!(number.outcome(0, Rounding::Even), Some(Outcome { wrapped: 2_i8, side: Side::Fits }));
    /// // 160
    /// assert_eq!(number.outcome(6, Rounding::Down), Some(Outcome { wrapped: -96_i8, side: Side::Above }));
    /// ```
    ///
    /// # Proved
    ///
    /// ```text
    /// ensures { IsOutcomeOfRow T.value T.SIGNED T.BITS (exact self frac rounding) result }
    /// ```
    ///
    /// Definitions: [`IsOutcomeOfRow`].
    ///
    /// [`IsOutcomeOfRow`]: crate::definitions::word_standing
    #[must_use]
    fn outcome<T: Castable>(self, frac: u32, rounding: Rounding) -> Option<Outcome<T>>;

    /// Returns the word that is nearest to the number in units of `2^-frac`, rounded.
    ///
    /// # Examples
    ///
    /// ```
    /// use zugyelmas::Source;
    /// use zugyelmas::prelude::*;
    /// use zugyelmas::word::{Outcome, Rounding, Side};
    /// let number = FixedI8::<4>::from_bits(40); // 2.5
    ///
    /// assert_eq!(number.saturated::<i16>(8, Rounding::Down), 640); // 2.5 * 256
    /// assert_eq!(number.saturated::<i8>(6, Rounding::Down), i8::MAX); // 160 does not fit
    /// ```
    ///
    /// # Panics
    ///
    /// Panics unless there is a number.
    ///
    /// # Proved
    ///
    /// ```text
    /// requires { IsSome (saturated T.SIGNED T.BITS self frac rounding) }
    /// ensures { Some (T.value result) ≡ saturated T.SIGNED T.BITS self frac rounding }
    /// ```
    #[must_use]
    fn saturated<T: Castable>(self, frac: u32, rounding: Rounding) -> T;
}

impl<N: Numeric> Source for N {
    const DEFAULT: Rounding = Rounding::Down;

    #[inline]
    fn outcome<T: Castable>(self, frac: u32, rounding: Rounding) -> Option<Outcome<T>> {
        Some(convert_round_of(
            self.to_word(),
            N::FRACTION,
            frac,
            rounding,
        ))
    }

    #[inline]
    #[track_caller]
    fn saturated<T: Castable>(self, frac: u32, rounding: Rounding) -> T {
        saturating_convert_of(self.to_word(), N::FRACTION, frac, rounding)
    }
}
