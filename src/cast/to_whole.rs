// Made by `make package` of crates/fixed_cast/src/to_whole.rt, which is proved: changes go there.

//! Rounding to whole numbers.

use crate::cast::beside::{
    Beside, checked_whole, exact_whole, overflowing_whole, saturating_whole, strict_whole,
    wrapping_frac, wrapping_whole,
};
use crate::cast::numeric::Numeric;
use crate::convert::Castable;
use crate::num::Fixed;

/// Rounding to whole numbers of the number's own format, by each policy. Precondition of each call: the fraction is
/// at most the width.
pub trait ToWhole: Numeric {
    /// Returns the largest whole number that is at most the number, wrapped. If every bit is a fraction bit, it is 0,
    /// also for a negative number.
    ///
    /// # Examples
    ///
    /// ```
    /// use zugyelmas::prelude::*;
    /// let number = FixedI8::<4>::from_num::<f64>;
    ///
    /// assert_eq!(number(1.75).int(), number(1.0));
    /// assert_eq!(number(-1.75).int(), number(-2.0)); // rounded down
    /// // of -0.25, where -1 does not fit
    /// assert_eq!(FixedI8::<8>::from_bits(-64).int(), FixedI8::ZERO);
    /// ```
    ///
    /// # Compile errors
    ///
    /// Compiles only if the fraction is at most the width.
    ///
    /// # Proved
    ///
    /// ```text
    /// requires { Self.FRACTION ≤ Self.Word.BITS }
    /// ensures { Some (Self.units result) ≡ wrapping Self.Word.SIGNED Self.Word.BITS
    ///     (Some (exact_floor (Self.units self) Self.FRACTION)) }
    /// ```
    ///
    /// Definitions: [`wrapping`], [`exact_floor`].
    ///
    /// [`wrapping`]: crate::definitions::word_policies
    /// [`exact_floor`]: crate::definitions::convert_whole_number
    #[must_use]
    fn int(self) -> Self;

    /// Returns the number minus `floor`, wrapped.
    ///
    /// # Examples
    ///
    /// ```
    /// use zugyelmas::prelude::*;
    /// let number = FixedI8::<4>::from_num::<f64>;
    ///
    /// assert_eq!(number(1.75).frac(), number(0.75));
    /// assert_eq!(number(-1.75).frac(), number(0.25)); // above -2
    /// ```
    ///
    /// # Compile errors
    ///
    /// Compiles only if the fraction is at most the width.
    ///
    /// # Proved
    ///
    /// ```text
    /// requires { Self.FRACTION ≤ Self.Word.BITS }
    /// ensures { Some (Self.units result) ≡ wrapping Self.Word.SIGNED Self.Word.BITS
    ///     (Some (exact_frac (Self.units self) Self.FRACTION)) }
    /// ```
    ///
    /// Definitions: [`wrapping`], [`exact_frac`].
    ///
    /// [`wrapping`]: crate::definitions::word_policies
    /// [`exact_frac`]: crate::definitions::convert_whole_number
    #[must_use]
    fn frac(self) -> Self;

    /// Returns the largest whole number that is at most the number. Precondition: it fits.
    ///
    /// # Examples
    ///
    /// ```
    /// use zugyelmas::prelude::*;
    /// type Number = FixedI8<4>; // from -8 to 7.9375
    /// let number = Number::from_num::<f64>;
    ///
    /// assert_eq!(number(1.75).floor(), number(1.0));
    /// assert_eq!(number(-1.75).floor(), number(-2.0));
    /// ```
    ///
    /// # Compile errors
    ///
    /// Compiles only if the fraction is at most the width.
    ///
    /// # Panics
    ///
    /// With debug assertions, panics unless the number fits. Without them, the result is wrapped.
    ///
    /// # Proved
    ///
    /// ```text
    /// requires fraction { Self.FRACTION ≤ Self.Word.BITS }
    /// requires fits { InRange Self.Word.SIGNED Self.Word.BITS (exact_floor (Self.units self) Self.FRACTION) }
    /// ensures { Self.units result ≡ exact_floor (Self.units self) Self.FRACTION }
    /// ```
    ///
    /// Definitions: [`InRange`], [`exact_floor`].
    ///
    /// [`InRange`]: crate::definitions::word_format
    /// [`exact_floor`]: crate::definitions::convert_whole_number
    #[must_use]
    fn floor(self) -> Self;

    /// Returns the smallest whole number that is at least the number. Precondition: it fits.
    ///
    /// # Examples
    ///
    /// ```
    /// use zugyelmas::prelude::*;
    /// type Number = FixedI8<4>; // from -8 to 7.9375
    /// let number = Number::from_num::<f64>;
    ///
    /// assert_eq!(number(1.25).ceil(), number(2.0));
    /// assert_eq!(number(-1.25).ceil(), number(-1.0));
    /// ```
    ///
    /// # Compile errors
    ///
    /// Compiles only if the fraction is at most the width.
    ///
    /// # Panics
    ///
    /// With debug assertions, panics unless the number fits. Without them, the result is wrapped.
    ///
    /// # Proved
    ///
    /// ```text
    /// requires fraction { Self.FRACTION ≤ Self.Word.BITS }
    /// requires fits { InRange Self.Word.SIGNED Self.Word.BITS (exact_ceil (Self.units self) Self.FRACTION) }
    /// ensures { Self.units result ≡ exact_ceil (Self.units self) Self.FRACTION }
    /// ```
    ///
    /// Definitions: [`InRange`], [`exact_ceil`].
    ///
    /// [`InRange`]: crate::definitions::word_format
    /// [`exact_ceil`]: crate::definitions::convert_whole_number
    #[must_use]
    fn ceil(self) -> Self;

    /// Returns the nearest whole number, ties away from 0. Precondition: it fits.
    ///
    /// # Examples
    ///
    /// ```
    /// use zugyelmas::prelude::*;
    /// type Number = FixedI8<4>; // from -8 to 7.9375
    /// let number = Number::from_num::<f64>;
    ///
    /// assert_eq!(number(1.25).round(), number(1.0));
    /// assert_eq!(number(2.5).round(), number(3.0)); // a tie, away from 0
    /// assert_eq!(number(-2.5).round(), number(-3.0));
    /// ```
    ///
    /// # Compile errors
    ///
    /// Compiles only if the fraction is at most the width.
    ///
    /// # Panics
    ///
    /// With debug assertions, panics unless the number fits. Without them, the result is wrapped.
    ///
    /// # Proved
    ///
    /// ```text
    /// requires fraction { Self.FRACTION ≤ Self.Word.BITS }
    /// requires fits { InRange Self.Word.SIGNED Self.Word.BITS (exact_round (Self.units self) Self.FRACTION) }
    /// ensures { Self.units result ≡ exact_round (Self.units self) Self.FRACTION }
    /// ```
    ///
    /// Definitions: [`InRange`], [`exact_round`].
    ///
    /// [`InRange`]: crate::definitions::word_format
    /// [`exact_round`]: crate::definitions::convert_whole_number
    #[must_use]
    fn round(self) -> Self;

    /// Returns the nearest whole number, ties to even. Precondition: it fits.
    ///
    /// # Examples
    ///
    /// ```
    /// use zugyelmas::prelude::*;
    /// type Number = FixedI8<4>; // from -8 to 7.9375
    /// let number = Number::from_num::<f64>;
    ///
    /// assert_eq!(number(1.25).round_ties_even(), number(1.0));
    /// assert_eq!(number(2.5).round_ties_even(), number(2.0)); // a tie, to the even number
    /// assert_eq!(number(3.5).round_ties_even(), number(4.0));
    /// ```
    ///
    /// # Compile errors
    ///
    /// Compiles only if the fraction is at most the width.
    ///
    /// # Panics
    ///
    /// With debug assertions, panics unless the number fits. Without them, the result is wrapped.
    ///
    /// # Proved
    ///
    /// ```text
    /// requires fraction { Self.FRACTION ≤ Self.Word.BITS }
    /// requires fits { InRange Self.Word.SIGNED Self.Word.BITS (exact_round_ties_even (Self.units self) Self.FRACTION) }
    /// ensures { Self.units result ≡ exact_round_ties_even (Self.units self) Self.FRACTION }
    /// ```
    ///
    /// Definitions: [`InRange`], [`exact_round_ties_even`].
    ///
    /// [`InRange`]: crate::definitions::word_format
    /// [`exact_round_ties_even`]: crate::definitions::convert_whole_number
    #[must_use]
    fn round_ties_even(self) -> Self;

    /// Returns the largest whole number that is at most the number, or `None` if it does not fit.
    ///
    /// # Examples
    ///
    /// ```
    /// use zugyelmas::prelude::*;
    /// type Number = FixedI8<4>; // from -8 to 7.9375
    /// let number = Number::from_num::<f64>;
    ///
    /// assert_eq!(number(1.75).checked_floor(), Some(number(1.0)));
    /// assert_eq!(number(-1.75).checked_floor(), Some(number(-2.0)));
    /// // the floor of -0.25 is -1
    /// assert_eq!(FixedI8::<8>::from_bits(-64).checked_floor(), None);
    /// ```
    ///
    /// # Compile errors
    ///
    /// Compiles only if the fraction is at most the width.
    ///
    /// # Proved
    ///
    /// ```text
    /// requires { Self.FRACTION ≤ Self.Word.BITS }
    /// ensures { option_map Self.units result
    ///     ≡ checked Self.Word.SIGNED Self.Word.BITS (Some (exact_floor (Self.units self) Self.FRACTION)) }
    /// ```
    ///
    /// Definitions: [`checked`], [`exact_floor`].
    ///
    /// [`checked`]: crate::definitions::word_policies
    /// [`exact_floor`]: crate::definitions::convert_whole_number
    #[must_use]
    fn checked_floor(self) -> Option<Self>;

    /// Returns the smallest whole number that is at least the number, or `None` if it does not fit.
    ///
    /// # Examples
    ///
    /// ```
    /// use zugyelmas::prelude::*;
    /// type Number = FixedI8<4>; // from -8 to 7.9375
    /// let number = Number::from_num::<f64>;
    ///
    /// assert_eq!(number(1.25).checked_ceil(), Some(number(2.0)));
    /// assert_eq!(number(-1.25).checked_ceil(), Some(number(-1.0)));
    /// assert_eq!(number(7.25).checked_ceil(), None); // 8 does not fit
    /// ```
    ///
    /// # Compile errors
    ///
    /// Compiles only if the fraction is at most the width.
    ///
    /// # Proved
    ///
    /// ```text
    /// requires { Self.FRACTION ≤ Self.Word.BITS }
    /// ensures { option_map Self.units result
    ///     ≡ checked Self.Word.SIGNED Self.Word.BITS (Some (exact_ceil (Self.units self) Self.FRACTION)) }
    /// ```
    ///
    /// Definitions: [`checked`], [`exact_ceil`].
    ///
    /// [`checked`]: crate::definitions::word_policies
    /// [`exact_ceil`]: crate::definitions::convert_whole_number
    #[must_use]
    fn checked_ceil(self) -> Option<Self>;

    /// Returns the nearest whole number, ties away from 0, or `None` if it does not fit.
    ///
    /// # Examples
    ///
    /// ```
    /// use zugyelmas::prelude::*;
    /// type Number = FixedI8<4>; // from -8 to 7.9375
    /// let number = Number::from_num::<f64>;
    ///
    /// assert_eq!(number(1.25).checked_round(), Some(number(1.0)));
    /// assert_eq!(number(2.5).checked_round(), Some(number(3.0))); // a tie, away from 0
    /// assert_eq!(number(-2.5).checked_round(), Some(number(-3.0)));
    /// assert_eq!(number(7.5).checked_round(), None); // 8 does not fit
    /// ```
    ///
    /// # Compile errors
    ///
    /// Compiles only if the fraction is at most the width.
    ///
    /// # Proved
    ///
    /// ```text
    /// requires { Self.FRACTION ≤ Self.Word.BITS }
    /// ensures { option_map Self.units result
    ///     ≡ checked Self.Word.SIGNED Self.Word.BITS (Some (exact_round (Self.units self) Self.FRACTION)) }
    /// ```
    ///
    /// Definitions: [`checked`], [`exact_round`].
    ///
    /// [`checked`]: crate::definitions::word_policies
    /// [`exact_round`]: crate::definitions::convert_whole_number
    #[must_use]
    fn checked_round(self) -> Option<Self>;

    /// Returns the nearest whole number, ties to even, or `None` if it does not fit.
    ///
    /// # Examples
    ///
    /// ```
    /// use zugyelmas::prelude::*;
    /// type Number = FixedI8<4>; // from -8 to 7.9375
    /// let number = Number::from_num::<f64>;
    ///
    /// assert_eq!(number(1.25).checked_round_ties_even(), Some(number(1.0)));
    /// // a tie, to the even number
    /// assert_eq!(number(2.5).checked_round_ties_even(), Some(number(2.0)));
    /// assert_eq!(number(3.5).checked_round_ties_even(), Some(number(4.0)));
    /// assert_eq!(number(7.5).checked_round_ties_even(), None); // 8 does not fit
    /// ```
    ///
    /// # Compile errors
    ///
    /// Compiles only if the fraction is at most the width.
    ///
    /// # Proved
    ///
    /// ```text
    /// requires { Self.FRACTION ≤ Self.Word.BITS }
    /// ensures { option_map Self.units result
    ///     ≡ checked Self.Word.SIGNED Self.Word.BITS (Some (exact_round_ties_even (Self.units self) Self.FRACTION)) }
    /// ```
    ///
    /// Definitions: [`checked`], [`exact_round_ties_even`].
    ///
    /// [`checked`]: crate::definitions::word_policies
    /// [`exact_round_ties_even`]: crate::definitions::convert_whole_number
    #[must_use]
    fn checked_round_ties_even(self) -> Option<Self>;

    /// Returns the largest whole number that is at most the number, wrapped, and whether it does not fit.
    ///
    /// # Examples
    ///
    /// ```
    /// use zugyelmas::prelude::*;
    /// type Number = FixedI8<4>; // from -8 to 7.9375
    /// let number = Number::from_num::<f64>;
    ///
    /// assert_eq!(number(1.75).overflowing_floor(), (number(1.0), false));
    /// assert_eq!(number(-1.75).overflowing_floor(), (number(-2.0), false));
    /// // the floor of -0.25 is -1
    /// assert_eq!(FixedI8::<8>::from_bits(-64).overflowing_floor(), (FixedI8::ZERO, true));
    /// ```
    ///
    /// # Compile errors
    ///
    /// Compiles only if the fraction is at most the width.
    ///
    /// # Proved
    ///
    /// ```text
    /// requires { Self.FRACTION ≤ Self.Word.BITS }
    /// ensures { Some (Self.units result.0, result.1)
    ///     ≡ overflowing Self.Word.SIGNED Self.Word.BITS (Some (exact_floor (Self.units self) Self.FRACTION)) }
    /// ```
    ///
    /// Definitions: [`overflowing`], [`exact_floor`].
    ///
    /// [`overflowing`]: crate::definitions::word_policies
    /// [`exact_floor`]: crate::definitions::convert_whole_number
    #[must_use]
    fn overflowing_floor(self) -> (Self, bool);

    /// Returns the smallest whole number that is at least the number, wrapped, and whether it does not fit.
    ///
    /// # Examples
    ///
    /// ```
    /// use zugyelmas::prelude::*;
    /// type Number = FixedI8<4>; // from -8 to 7.9375
    /// let number = Number::from_num::<f64>;
    ///
    /// assert_eq!(number(1.25).overflowing_ceil(), (number(2.0), false));
    /// assert_eq!(number(-1.25).overflowing_ceil(), (number(-1.0), false));
    /// assert_eq!(number(7.25).overflowing_ceil(), (Number::MIN, true)); // 8 does not fit
    /// ```
    ///
    /// # Compile errors
    ///
    /// Compiles only if the fraction is at most the width.
    ///
    /// # Proved
    ///
    /// ```text
    /// requires { Self.FRACTION ≤ Self.Word.BITS }
    /// ensures { Some (Self.units result.0, result.1)
    ///     ≡ overflowing Self.Word.SIGNED Self.Word.BITS (Some (exact_ceil (Self.units self) Self.FRACTION)) }
    /// ```
    ///
    /// Definitions: [`overflowing`], [`exact_ceil`].
    ///
    /// [`overflowing`]: crate::definitions::word_policies
    /// [`exact_ceil`]: crate::definitions::convert_whole_number
    #[must_use]
    fn overflowing_ceil(self) -> (Self, bool);

    /// Returns the nearest whole number, ties away from 0, wrapped, and whether it does not fit.
    ///
    /// # Examples
    ///
    /// ```
    /// use zugyelmas::prelude::*;
    /// type Number = FixedI8<4>; // from -8 to 7.9375
    /// let number = Number::from_num::<f64>;
    ///
    /// assert_eq!(number(1.25).overflowing_round(), (number(1.0), false));
    /// // a tie, away from 0
    /// assert_eq!(number(2.5).overflowing_round(), (number(3.0), false));
    /// assert_eq!(number(-2.5).overflowing_round(), (number(-3.0), false));
    /// assert_eq!(number(7.5).overflowing_round(), (Number::MIN, true)); // 8 does not fit
    /// ```
    ///
    /// # Compile errors
    ///
    /// Compiles only if the fraction is at most the width.
    ///
    /// # Proved
    ///
    /// ```text
    /// requires { Self.FRACTION ≤ Self.Word.BITS }
    /// ensures { Some (Self.units result.0, result.1)
    ///     ≡ overflowing Self.Word.SIGNED Self.Word.BITS (Some (exact_round (Self.units self) Self.FRACTION)) }
    /// ```
    ///
    /// Definitions: [`overflowing`], [`exact_round`].
    ///
    /// [`overflowing`]: crate::definitions::word_policies
    /// [`exact_round`]: crate::definitions::convert_whole_number
    #[must_use]
    fn overflowing_round(self) -> (Self, bool);

    /// Returns the nearest whole number, ties to even, wrapped, and whether it does not fit.
    ///
    /// # Examples
    ///
    /// ```
    /// use zugyelmas::prelude::*;
    /// type Number = FixedI8<4>; // from -8 to 7.9375
    /// let number = Number::from_num::<f64>;
    ///
    /// assert_eq!(number(1.25).overflowing_round_ties_even(), (number(1.0), false));
    /// // a tie, to the even number
    /// assert_eq!(number(2.5).overflowing_round_ties_even(), (number(2.0), false));
    /// assert_eq!(number(3.5).overflowing_round_ties_even(), (number(4.0), false));
    /// // 8 does not fit
    /// assert_eq!(number(7.5).overflowing_round_ties_even(), (Number::MIN, true));
    /// ```
    ///
    /// # Compile errors
    ///
    /// Compiles only if the fraction is at most the width.
    ///
    /// # Proved
    ///
    /// ```text
    /// requires { Self.FRACTION ≤ Self.Word.BITS }
    /// ensures { Some (Self.units result.0, result.1)
    ///     ≡ overflowing Self.Word.SIGNED Self.Word.BITS (Some (exact_round_ties_even (Self.units self) Self.FRACTION)) }
    /// ```
    ///
    /// Definitions: [`overflowing`], [`exact_round_ties_even`].
    ///
    /// [`overflowing`]: crate::definitions::word_policies
    /// [`exact_round_ties_even`]: crate::definitions::convert_whole_number
    #[must_use]
    fn overflowing_round_ties_even(self) -> (Self, bool);

    /// Returns the largest whole number that is at most the number, wrapped.
    ///
    /// # Examples
    ///
    /// ```
    /// use zugyelmas::prelude::*;
    /// type Number = FixedI8<4>; // from -8 to 7.9375
    /// let number = Number::from_num::<f64>;
    ///
    /// assert_eq!(number(1.75).wrapping_floor(), number(1.0));
    /// assert_eq!(number(-1.75).wrapping_floor(), number(-2.0));
    /// // the floor of -0.25 is -1
    /// assert_eq!(FixedI8::<8>::from_bits(-64).wrapping_floor(), FixedI8::ZERO);
    /// ```
    ///
    /// # Compile errors
    ///
    /// Compiles only if the fraction is at most the width.
    ///
    /// # Proved
    ///
    /// ```text
    /// requires { Self.FRACTION ≤ Self.Word.BITS }
    /// ensures { Some (Self.units result)
    ///     ≡ wrapping Self.Word.SIGNED Self.Word.BITS (Some (exact_floor (Self.units self) Self.FRACTION)) }
    /// ```
    ///
    /// Definitions: [`wrapping`], [`exact_floor`].
    ///
    /// [`wrapping`]: crate::definitions::word_policies
    /// [`exact_floor`]: crate::definitions::convert_whole_number
    #[must_use]
    fn wrapping_floor(self) -> Self;

    /// Returns the smallest whole number that is at least the number, wrapped.
    ///
    /// # Examples
    ///
    /// ```
    /// use zugyelmas::prelude::*;
    /// type Number = FixedI8<4>; // from -8 to 7.9375
    /// let number = Number::from_num::<f64>;
    ///
    /// assert_eq!(number(1.25).wrapping_ceil(), number(2.0));
    /// assert_eq!(number(-1.25).wrapping_ceil(), number(-1.0));
    /// assert_eq!(number(7.25).wrapping_ceil(), Number::MIN); // 8 does not fit
    /// ```
    ///
    /// # Compile errors
    ///
    /// Compiles only if the fraction is at most the width.
    ///
    /// # Proved
    ///
    /// ```text
    /// requires { Self.FRACTION ≤ Self.Word.BITS }
    /// ensures { Some (Self.units result)
    ///     ≡ wrapping Self.Word.SIGNED Self.Word.BITS (Some (exact_ceil (Self.units self) Self.FRACTION)) }
    /// ```
    ///
    /// Definitions: [`wrapping`], [`exact_ceil`].
    ///
    /// [`wrapping`]: crate::definitions::word_policies
    /// [`exact_ceil`]: crate::definitions::convert_whole_number
    #[must_use]
    fn wrapping_ceil(self) -> Self;

    /// Returns the nearest whole number, ties away from 0, wrapped.
    ///
    /// # Examples
    ///
    /// ```
    /// use zugyelmas::prelude::*;
    /// type Number = FixedI8<4>; // from -8 to 7.9375
    /// let number = Number::from_num::<f64>;
    ///
    /// assert_eq!(number(1.25).wrapping_round(), number(1.0));
    /// assert_eq!(number(2.5).wrapping_round(), number(3.0)); // a tie, away from 0
    /// assert_eq!(number(-2.5).wrapping_round(), number(-3.0));
    /// assert_eq!(number(7.5).wrapping_round(), Number::MIN); // 8 does not fit
    /// ```
    ///
    /// # Compile errors
    ///
    /// Compiles only if the fraction is at most the width.
    ///
    /// # Proved
    ///
    /// ```text
    /// requires { Self.FRACTION ≤ Self.Word.BITS }
    /// ensures { Some (Self.units result)
    ///     ≡ wrapping Self.Word.SIGNED Self.Word.BITS (Some (exact_round (Self.units self) Self.FRACTION)) }
    /// ```
    ///
    /// Definitions: [`wrapping`], [`exact_round`].
    ///
    /// [`wrapping`]: crate::definitions::word_policies
    /// [`exact_round`]: crate::definitions::convert_whole_number
    #[must_use]
    fn wrapping_round(self) -> Self;

    /// Returns the nearest whole number, ties to even, wrapped.
    ///
    /// # Examples
    ///
    /// ```
    /// use zugyelmas::prelude::*;
    /// type Number = FixedI8<4>; // from -8 to 7.9375
    /// let number = Number::from_num::<f64>;
    ///
    /// assert_eq!(number(1.25).wrapping_round_ties_even(), number(1.0));
    /// // a tie, to the even number
    /// assert_eq!(number(2.5).wrapping_round_ties_even(), number(2.0));
    /// assert_eq!(number(3.5).wrapping_round_ties_even(), number(4.0));
    /// assert_eq!(number(7.5).wrapping_round_ties_even(), Number::MIN); // 8 does not fit
    /// ```
    ///
    /// # Compile errors
    ///
    /// Compiles only if the fraction is at most the width.
    ///
    /// # Proved
    ///
    /// ```text
    /// requires { Self.FRACTION ≤ Self.Word.BITS }
    /// ensures { Some (Self.units result)
    ///     ≡ wrapping Self.Word.SIGNED Self.Word.BITS (Some (exact_round_ties_even (Self.units self) Self.FRACTION)) }
    /// ```
    ///
    /// Definitions: [`wrapping`], [`exact_round_ties_even`].
    ///
    /// [`wrapping`]: crate::definitions::word_policies
    /// [`exact_round_ties_even`]: crate::definitions::convert_whole_number
    #[must_use]
    fn wrapping_round_ties_even(self) -> Self;

    /// Returns the largest whole number that is at most the number, saturated.
    ///
    /// # Examples
    ///
    /// ```
    /// use zugyelmas::prelude::*;
    /// type Number = FixedI8<4>; // from -8 to 7.9375
    /// let number = Number::from_num::<f64>;
    ///
    /// assert_eq!(number(1.75).saturating_floor(), number(1.0));
    /// assert_eq!(number(-1.75).saturating_floor(), number(-2.0));
    /// // the floor of -0.25 is -1
    /// assert_eq!(FixedI8::<8>::from_bits(-64).saturating_floor(), FixedI8::MIN);
    /// ```
    ///
    /// # Compile errors
    ///
    /// Compiles only if the fraction is at most the width.
    ///
    /// # Proved
    ///
    /// ```text
    /// requires { Self.FRACTION ≤ Self.Word.BITS }
    /// ensures { Some (Self.units result)
    ///     ≡ saturating Self.Word.SIGNED Self.Word.BITS (Some (exact_floor (Self.units self) Self.FRACTION)) }
    /// ```
    ///
    /// Definitions: [`saturating`], [`exact_floor`].
    ///
    /// [`saturating`]: crate::definitions::word_policies
    /// [`exact_floor`]: crate::definitions::convert_whole_number
    #[must_use]
    fn saturating_floor(self) -> Self;

    /// Returns the smallest whole number that is at least the number, saturated.
    ///
    /// # Examples
    ///
    /// ```
    /// use zugyelmas::prelude::*;
    /// type Number = FixedI8<4>; // from -8 to 7.9375
    /// let number = Number::from_num::<f64>;
    ///
    /// assert_eq!(number(1.25).saturating_ceil(), number(2.0));
    /// assert_eq!(number(-1.25).saturating_ceil(), number(-1.0));
    /// assert_eq!(number(7.25).saturating_ceil(), Number::MAX); // 8 does not fit
    /// ```
    ///
    /// # Compile errors
    ///
    /// Compiles only if the fraction is at most the width.
    ///
    /// # Proved
    ///
    /// ```text
    /// requires { Self.FRACTION ≤ Self.Word.BITS }
    /// ensures { Some (Self.units result)
    ///     ≡ saturating Self.Word.SIGNED Self.Word.BITS (Some (exact_ceil (Self.units self) Self.FRACTION)) }
    /// ```
    ///
    /// Definitions: [`saturating`], [`exact_ceil`].
    ///
    /// [`saturating`]: crate::definitions::word_policies
    /// [`exact_ceil`]: crate::definitions::convert_whole_number
    #[must_use]
    fn saturating_ceil(self) -> Self;

    /// Returns the nearest whole number, ties away from 0, saturated.
    ///
    /// # Examples
    ///
    /// ```
    /// use zugyelmas::prelude::*;
    /// type Number = FixedI8<4>; // from -8 to 7.9375
    /// let number = Number::from_num::<f64>;
    ///
    /// assert_eq!(number(1.25).saturating_round(), number(1.0));
    /// assert_eq!(number(2.5).saturating_round(), number(3.0)); // a tie, away from 0
    /// assert_eq!(number(-2.5).saturating_round(), number(-3.0));
    /// assert_eq!(number(7.5).saturating_round(), Number::MAX); // 8 does not fit
    /// ```
    ///
    /// # Compile errors
    ///
    /// Compiles only if the fraction is at most the width.
    ///
    /// # Proved
    ///
    /// ```text
    /// requires { Self.FRACTION ≤ Self.Word.BITS }
    /// ensures { Some (Self.units result)
    ///     ≡ saturating Self.Word.SIGNED Self.Word.BITS (Some (exact_round (Self.units self) Self.FRACTION)) }
    /// ```
    ///
    /// Definitions: [`saturating`], [`exact_round`].
    ///
    /// [`saturating`]: crate::definitions::word_policies
    /// [`exact_round`]: crate::definitions::convert_whole_number
    #[must_use]
    fn saturating_round(self) -> Self;

    /// Returns the nearest whole number, ties to even, saturated.
    ///
    /// # Examples
    ///
    /// ```
    /// use zugyelmas::prelude::*;
    /// type Number = FixedI8<4>; // from -8 to 7.9375
    /// let number = Number::from_num::<f64>;
    ///
    /// assert_eq!(number(1.25).saturating_round_ties_even(), number(1.0));
    /// // a tie, to the even number
    /// assert_eq!(number(2.5).saturating_round_ties_even(), number(2.0));
    /// assert_eq!(number(3.5).saturating_round_ties_even(), number(4.0));
    /// assert_eq!(number(7.5).saturating_round_ties_even(), Number::MAX); // 8 does not fit
    /// ```
    ///
    /// # Compile errors
    ///
    /// Compiles only if the fraction is at most the width.
    ///
    /// # Proved
    ///
    /// ```text
    /// requires { Self.FRACTION ≤ Self.Word.BITS }
    /// ensures { Some (Self.units result)
    ///     ≡ saturating Self.Word.SIGNED Self.Word.BITS (Some (exact_round_ties_even (Self.units self) Self.FRACTION)) }
    /// ```
    ///
    /// Definitions: [`saturating`], [`exact_round_ties_even`].
    ///
    /// [`saturating`]: crate::definitions::word_policies
    /// [`exact_round_ties_even`]: crate::definitions::convert_whole_number
    #[must_use]
    fn saturating_round_ties_even(self) -> Self;

    /// Returns the largest whole number that is at most the number. Precondition: it fits.
    ///
    /// # Examples
    ///
    /// ```
    /// use zugyelmas::prelude::*;
    /// type Number = FixedI8<4>; // from -8 to 7.9375
    /// let number = Number::from_num::<f64>;
    ///
    /// assert_eq!(number(1.75).strict_floor(), number(1.0));
    /// assert_eq!(number(-1.75).strict_floor(), number(-2.0));
    /// ```
    ///
    /// ```should_panic
    /// # use zugyelmas::prelude::*;
    /// # type Number = FixedI8<4>; // from -8 to 7.9375
    /// # let number = Number::from_num::<f64>;
    /// # std::panic::set_hook(Box::new(|_| {}));
    /// FixedI8::<8>::from_bits(-64).strict_floor(); // the floor of -0.25 is -1
    /// ```
    ///
    /// # Compile errors
    ///
    /// Compiles only if the fraction is at most the width.
    ///
    /// # Panics
    ///
    /// Panics unless the number fits.
    ///
    /// # Proved
    ///
    /// ```text
    /// requires fraction { Self.FRACTION ≤ Self.Word.BITS }
    /// requires fits { InRange Self.Word.SIGNED Self.Word.BITS (exact_floor (Self.units self) Self.FRACTION) }
    /// ensures { Self.units result ≡ exact_floor (Self.units self) Self.FRACTION }
    /// ```
    ///
    /// Definitions: [`InRange`], [`exact_floor`].
    ///
    /// [`InRange`]: crate::definitions::word_format
    /// [`exact_floor`]: crate::definitions::convert_whole_number
    #[must_use]
    fn strict_floor(self) -> Self;

    /// Returns the smallest whole number that is at least the number. Precondition: it fits.
    ///
    /// # Examples
    ///
    /// ```
    /// use zugyelmas::prelude::*;
    /// type Number = FixedI8<4>; // from -8 to 7.9375
    /// let number = Number::from_num::<f64>;
    ///
    /// assert_eq!(number(1.25).strict_ceil(), number(2.0));
    /// assert_eq!(number(-1.25).strict_ceil(), number(-1.0));
    /// ```
    ///
    /// ```should_panic
    /// # use zugyelmas::prelude::*;
    /// # type Number = FixedI8<4>; // from -8 to 7.9375
    /// # let number = Number::from_num::<f64>;
    /// # std::panic::set_hook(Box::new(|_| {}));
    /// number(7.25).strict_ceil(); // 8 does not fit
    /// ```
    ///
    /// # Compile errors
    ///
    /// Compiles only if the fraction is at most the width.
    ///
    /// # Panics
    ///
    /// Panics unless the number fits.
    ///
    /// # Proved
    ///
    /// ```text
    /// requires fraction { Self.FRACTION ≤ Self.Word.BITS }
    /// requires fits { InRange Self.Word.SIGNED Self.Word.BITS (exact_ceil (Self.units self) Self.FRACTION) }
    /// ensures { Self.units result ≡ exact_ceil (Self.units self) Self.FRACTION }
    /// ```
    ///
    /// Definitions: [`InRange`], [`exact_ceil`].
    ///
    /// [`InRange`]: crate::definitions::word_format
    /// [`exact_ceil`]: crate::definitions::convert_whole_number
    #[must_use]
    fn strict_ceil(self) -> Self;

    /// Returns the nearest whole number, ties away from 0. Precondition: it fits.
    ///
    /// # Examples
    ///
    /// ```
    /// use zugyelmas::prelude::*;
    /// type Number = FixedI8<4>; // from -8 to 7.9375
    /// let number = Number::from_num::<f64>;
    ///
    /// assert_eq!(number(1.25).strict_round(), number(1.0));
    /// assert_eq!(number(2.5).strict_round(), number(3.0)); // a tie, away from 0
    /// assert_eq!(number(-2.5).strict_round(), number(-3.0));
    /// ```
    ///
    /// ```should_panic
    /// # use zugyelmas::prelude::*;
    /// # type Number = FixedI8<4>; // from -8 to 7.9375
    /// # let number = Number::from_num::<f64>;
    /// # std::panic::set_hook(Box::new(|_| {}));
    /// number(7.5).strict_round(); // 8 does not fit
    /// ```
    ///
    /// # Compile errors
    ///
    /// Compiles only if the fraction is at most the width.
    ///
    /// # Panics
    ///
    /// Panics unless the number fits.
    ///
    /// # Proved
    ///
    /// ```text
    /// requires fraction { Self.FRACTION ≤ Self.Word.BITS }
    /// requires fits { InRange Self.Word.SIGNED Self.Word.BITS (exact_round (Self.units self) Self.FRACTION) }
    /// ensures { Self.units result ≡ exact_round (Self.units self) Self.FRACTION }
    /// ```
    ///
    /// Definitions: [`InRange`], [`exact_round`].
    ///
    /// [`InRange`]: crate::definitions::word_format
    /// [`exact_round`]: crate::definitions::convert_whole_number
    #[must_use]
    fn strict_round(self) -> Self;

    /// Returns the nearest whole number, ties to even. Precondition: it fits.
    ///
    /// # Examples
    ///
    /// ```
    /// use zugyelmas::prelude::*;
    /// type Number = FixedI8<4>; // from -8 to 7.9375
    /// let number = Number::from_num::<f64>;
    ///
    /// assert_eq!(number(1.25).strict_round_ties_even(), number(1.0));
    /// // a tie, to the even number
    /// assert_eq!(number(2.5).strict_round_ties_even(), number(2.0));
    /// assert_eq!(number(3.5).strict_round_ties_even(), number(4.0));
    /// ```
    ///
    /// ```should_panic
    /// # use zugyelmas::prelude::*;
    /// # type Number = FixedI8<4>; // from -8 to 7.9375
    /// # let number = Number::from_num::<f64>;
    /// # std::panic::set_hook(Box::new(|_| {}));
    /// number(7.5).strict_round_ties_even(); // 8 does not fit
    /// ```
    ///
    /// # Compile errors
    ///
    /// Compiles only if the fraction is at most the width.
    ///
    /// # Panics
    ///
    /// Panics unless the number fits.
    ///
    /// # Proved
    ///
    /// ```text
    /// requires fraction { Self.FRACTION ≤ Self.Word.BITS }
    /// requires fits { InRange Self.Word.SIGNED Self.Word.BITS (exact_round_ties_even (Self.units self) Self.FRACTION) }
    /// ensures { Self.units result ≡ exact_round_ties_even (Self.units self) Self.FRACTION }
    /// ```
    ///
    /// Definitions: [`InRange`], [`exact_round_ties_even`].
    ///
    /// [`InRange`]: crate::definitions::word_format
    /// [`exact_round_ties_even`]: crate::definitions::convert_whole_number
    #[must_use]
    fn strict_round_ties_even(self) -> Self;

    /// Returns the largest whole number that is at most the number. Precondition: it fits.
    ///
    /// # Examples
    ///
    /// ```
    /// use zugyelmas::prelude::*;
    /// type Number = FixedI8<4>; // from -8 to 7.9375
    /// let number = Number::from_num::<f64>;
    ///
    /// assert_eq!(number(1.75).unwrapped_floor(), number(1.0));
    /// assert_eq!(number(-1.75).unwrapped_floor(), number(-2.0));
    /// ```
    ///
    /// ```should_panic
    /// # use zugyelmas::prelude::*;
    /// # type Number = FixedI8<4>; // from -8 to 7.9375
    /// # let number = Number::from_num::<f64>;
    /// # std::panic::set_hook(Box::new(|_| {}));
    /// FixedI8::<8>::from_bits(-64).unwrapped_floor(); // the floor of -0.25 is -1
    /// ```
    ///
    /// # Compile errors
    ///
    /// Compiles only if the fraction is at most the width.
    ///
    /// # Panics
    ///
    /// Panics unless the number fits.
    ///
    /// # Proved
    ///
    /// ```text
    /// requires fraction { Self.FRACTION ≤ Self.Word.BITS }
    /// requires fits { InRange Self.Word.SIGNED Self.Word.BITS (exact_floor (Self.units self) Self.FRACTION) }
    /// ensures { Self.units result ≡ exact_floor (Self.units self) Self.FRACTION }
    /// ```
    ///
    /// Definitions: [`InRange`], [`exact_floor`].
    ///
    /// [`InRange`]: crate::definitions::word_format
    /// [`exact_floor`]: crate::definitions::convert_whole_number
    #[must_use]
    fn unwrapped_floor(self) -> Self;

    /// Returns the smallest whole number that is at least the number. Precondition: it fits.
    ///
    /// # Examples
    ///
    /// ```
    /// use zugyelmas::prelude::*;
    /// type Number = FixedI8<4>; // from -8 to 7.9375
    /// let number = Number::from_num::<f64>;
    ///
    /// assert_eq!(number(1.25).unwrapped_ceil(), number(2.0));
    /// assert_eq!(number(-1.25).unwrapped_ceil(), number(-1.0));
    /// ```
    ///
    /// ```should_panic
    /// # use zugyelmas::prelude::*;
    /// # type Number = FixedI8<4>; // from -8 to 7.9375
    /// # let number = Number::from_num::<f64>;
    /// # std::panic::set_hook(Box::new(|_| {}));
    /// number(7.25).unwrapped_ceil(); // 8 does not fit
    /// ```
    ///
    /// # Compile errors
    ///
    /// Compiles only if the fraction is at most the width.
    ///
    /// # Panics
    ///
    /// Panics unless the number fits.
    ///
    /// # Proved
    ///
    /// ```text
    /// requires fraction { Self.FRACTION ≤ Self.Word.BITS }
    /// requires fits { InRange Self.Word.SIGNED Self.Word.BITS (exact_ceil (Self.units self) Self.FRACTION) }
    /// ensures { Self.units result ≡ exact_ceil (Self.units self) Self.FRACTION }
    /// ```
    ///
    /// Definitions: [`InRange`], [`exact_ceil`].
    ///
    /// [`InRange`]: crate::definitions::word_format
    /// [`exact_ceil`]: crate::definitions::convert_whole_number
    #[must_use]
    fn unwrapped_ceil(self) -> Self;

    /// Returns the nearest whole number, ties away from 0. Precondition: it fits.
    ///
    /// # Examples
    ///
    /// ```
    /// use zugyelmas::prelude::*;
    /// type Number = FixedI8<4>; // from -8 to 7.9375
    /// let number = Number::from_num::<f64>;
    ///
    /// assert_eq!(number(1.25).unwrapped_round(), number(1.0));
    /// assert_eq!(number(2.5).unwrapped_round(), number(3.0)); // a tie, away from 0
    /// assert_eq!(number(-2.5).unwrapped_round(), number(-3.0));
    /// ```
    ///
    /// ```should_panic
    /// # use zugyelmas::prelude::*;
    /// # type Number = FixedI8<4>; // from -8 to 7.9375
    /// # let number = Number::from_num::<f64>;
    /// # std::panic::set_hook(Box::new(|_| {}));
    /// number(7.5).unwrapped_round(); // 8 does not fit
    /// ```
    ///
    /// # Compile errors
    ///
    /// Compiles only if the fraction is at most the width.
    ///
    /// # Panics
    ///
    /// Panics unless the number fits.
    ///
    /// # Proved
    ///
    /// ```text
    /// requires fraction { Self.FRACTION ≤ Self.Word.BITS }
    /// requires fits { InRange Self.Word.SIGNED Self.Word.BITS (exact_round (Self.units self) Self.FRACTION) }
    /// ensures { Self.units result ≡ exact_round (Self.units self) Self.FRACTION }
    /// ```
    ///
    /// Definitions: [`InRange`], [`exact_round`].
    ///
    /// [`InRange`]: crate::definitions::word_format
    /// [`exact_round`]: crate::definitions::convert_whole_number
    #[must_use]
    fn unwrapped_round(self) -> Self;

    /// Returns the nearest whole number, ties to even. Precondition: it fits.
    ///
    /// # Examples
    ///
    /// ```
    /// use zugyelmas::prelude::*;
    /// type Number = FixedI8<4>; // from -8 to 7.9375
    /// let number = Number::from_num::<f64>;
    ///
    /// assert_eq!(number(1.25).unwrapped_round_ties_even(), number(1.0));
    /// // a tie, to the even number
    /// assert_eq!(number(2.5).unwrapped_round_ties_even(), number(2.0));
    /// assert_eq!(number(3.5).unwrapped_round_ties_even(), number(4.0));
    /// ```
    ///
    /// ```should_panic
    /// # use zugyelmas::prelude::*;
    /// # type Number = FixedI8<4>; // from -8 to 7.9375
    /// # let number = Number::from_num::<f64>;
    /// # std::panic::set_hook(Box::new(|_| {}));
    /// number(7.5).unwrapped_round_ties_even(); // 8 does not fit
    /// ```
    ///
    /// # Compile errors
    ///
    /// Compiles only if the fraction is at most the width.
    ///
    /// # Panics
    ///
    /// Panics unless the number fits.
    ///
    /// # Proved
    ///
    /// ```text
    /// requires fraction { Self.FRACTION ≤ Self.Word.BITS }
    /// requires fits { InRange Self.Word.SIGNED Self.Word.BITS (exact_round_ties_even (Self.units self) Self.FRACTION) }
    /// ensures { Self.units result ≡ exact_round_ties_even (Self.units self) Self.FRACTION }
    /// ```
    ///
    /// Definitions: [`InRange`], [`exact_round_ties_even`].
    ///
    /// [`InRange`]: crate::definitions::word_format
    /// [`exact_round_ties_even`]: crate::definitions::convert_whole_number
    #[must_use]
    fn unwrapped_round_ties_even(self) -> Self;
}

impl<T: Castable, const F: u32> ToWhole for Fixed<T, F> {
    #[inline]
    #[track_caller]
    fn int(self) -> Self {
        const {
            assert!(
                Self::FRACTION <= <Self::Word as crate::word::Valued>::BITS,
                "precondition: the fraction is at most the width"
            )
        };
        wrapping_whole(self, Beside::Floor)
    }

    #[inline]
    #[track_caller]
    fn frac(self) -> Self {
        const {
            assert!(
                Self::FRACTION <= <Self::Word as crate::word::Valued>::BITS,
                "precondition: the fraction is at most the width"
            )
        };
        wrapping_frac(self)
    }

    #[inline]
    #[track_caller]
    fn floor(self) -> Self {
        const {
            assert!(
                Self::FRACTION <= <Self::Word as crate::word::Valued>::BITS,
                "precondition: the fraction is at most the width"
            )
        };
        exact_whole(self, Beside::Floor)
    }

    #[inline]
    #[track_caller]
    fn ceil(self) -> Self {
        const {
            assert!(
                Self::FRACTION <= <Self::Word as crate::word::Valued>::BITS,
                "precondition: the fraction is at most the width"
            )
        };
        exact_whole(self, Beside::Ceil)
    }

    #[inline]
    #[track_caller]
    fn round(self) -> Self {
        const {
            assert!(
                Self::FRACTION <= <Self::Word as crate::word::Valued>::BITS,
                "precondition: the fraction is at most the width"
            )
        };
        exact_whole(self, Beside::Round)
    }

    #[inline]
    #[track_caller]
    fn round_ties_even(self) -> Self {
        const {
            assert!(
                Self::FRACTION <= <Self::Word as crate::word::Valued>::BITS,
                "precondition: the fraction is at most the width"
            )
        };
        exact_whole(self, Beside::RoundTiesEven)
    }

    #[inline]
    #[track_caller]
    fn checked_floor(self) -> Option<Self> {
        const {
            assert!(
                Self::FRACTION <= <Self::Word as crate::word::Valued>::BITS,
                "precondition: the fraction is at most the width"
            )
        };
        checked_whole(self, Beside::Floor)
    }

    #[inline]
    #[track_caller]
    fn checked_ceil(self) -> Option<Self> {
        const {
            assert!(
                Self::FRACTION <= <Self::Word as crate::word::Valued>::BITS,
                "precondition: the fraction is at most the width"
            )
        };
        checked_whole(self, Beside::Ceil)
    }

    #[inline]
    #[track_caller]
    fn checked_round(self) -> Option<Self> {
        const {
            assert!(
                Self::FRACTION <= <Self::Word as crate::word::Valued>::BITS,
                "precondition: the fraction is at most the width"
            )
        };
        checked_whole(self, Beside::Round)
    }

    #[inline]
    #[track_caller]
    fn checked_round_ties_even(self) -> Option<Self> {
        const {
            assert!(
                Self::FRACTION <= <Self::Word as crate::word::Valued>::BITS,
                "precondition: the fraction is at most the width"
            )
        };
        checked_whole(self, Beside::RoundTiesEven)
    }

    #[inline]
    #[track_caller]
    fn overflowing_floor(self) -> (Self, bool) {
        const {
            assert!(
                Self::FRACTION <= <Self::Word as crate::word::Valued>::BITS,
                "precondition: the fraction is at most the width"
            )
        };
        overflowing_whole(self, Beside::Floor)
    }

    #[inline]
    #[track_caller]
    fn overflowing_ceil(self) -> (Self, bool) {
        const {
            assert!(
                Self::FRACTION <= <Self::Word as crate::word::Valued>::BITS,
                "precondition: the fraction is at most the width"
            )
        };
        overflowing_whole(self, Beside::Ceil)
    }

    #[inline]
    #[track_caller]
    fn overflowing_round(self) -> (Self, bool) {
        const {
            assert!(
                Self::FRACTION <= <Self::Word as crate::word::Valued>::BITS,
                "precondition: the fraction is at most the width"
            )
        };
        overflowing_whole(self, Beside::Round)
    }

    #[inline]
    #[track_caller]
    fn overflowing_round_ties_even(self) -> (Self, bool) {
        const {
            assert!(
                Self::FRACTION <= <Self::Word as crate::word::Valued>::BITS,
                "precondition: the fraction is at most the width"
            )
        };
        overflowing_whole(self, Beside::RoundTiesEven)
    }

    #[inline]
    #[track_caller]
    fn wrapping_floor(self) -> Self {
        const {
            assert!(
                Self::FRACTION <= <Self::Word as crate::word::Valued>::BITS,
                "precondition: the fraction is at most the width"
            )
        };
        wrapping_whole(self, Beside::Floor)
    }

    #[inline]
    #[track_caller]
    fn wrapping_ceil(self) -> Self {
        const {
            assert!(
                Self::FRACTION <= <Self::Word as crate::word::Valued>::BITS,
                "precondition: the fraction is at most the width"
            )
        };
        wrapping_whole(self, Beside::Ceil)
    }

    #[inline]
    #[track_caller]
    fn wrapping_round(self) -> Self {
        const {
            assert!(
                Self::FRACTION <= <Self::Word as crate::word::Valued>::BITS,
                "precondition: the fraction is at most the width"
            )
        };
        wrapping_whole(self, Beside::Round)
    }

    #[inline]
    #[track_caller]
    fn wrapping_round_ties_even(self) -> Self {
        const {
            assert!(
                Self::FRACTION <= <Self::Word as crate::word::Valued>::BITS,
                "precondition: the fraction is at most the width"
            )
        };
        wrapping_whole(self, Beside::RoundTiesEven)
    }

    #[inline]
    #[track_caller]
    fn saturating_floor(self) -> Self {
        const {
            assert!(
                Self::FRACTION <= <Self::Word as crate::word::Valued>::BITS,
                "precondition: the fraction is at most the width"
            )
        };
        saturating_whole(self, Beside::Floor)
    }

    #[inline]
    #[track_caller]
    fn saturating_ceil(self) -> Self {
        const {
            assert!(
                Self::FRACTION <= <Self::Word as crate::word::Valued>::BITS,
                "precondition: the fraction is at most the width"
            )
        };
        saturating_whole(self, Beside::Ceil)
    }

    #[inline]
    #[track_caller]
    fn saturating_round(self) -> Self {
        const {
            assert!(
                Self::FRACTION <= <Self::Word as crate::word::Valued>::BITS,
                "precondition: the fraction is at most the width"
            )
        };
        saturating_whole(self, Beside::Round)
    }

    #[inline]
    #[track_caller]
    fn saturating_round_ties_even(self) -> Self {
        const {
            assert!(
                Self::FRACTION <= <Self::Word as crate::word::Valued>::BITS,
                "precondition: the fraction is at most the width"
            )
        };
        saturating_whole(self, Beside::RoundTiesEven)
    }

    #[inline]
    #[track_caller]
    fn strict_floor(self) -> Self {
        const {
            assert!(
                Self::FRACTION <= <Self::Word as crate::word::Valued>::BITS,
                "precondition: the fraction is at most the width"
            )
        };
        strict_whole(self, Beside::Floor)
    }

    #[inline]
    #[track_caller]
    fn strict_ceil(self) -> Self {
        const {
            assert!(
                Self::FRACTION <= <Self::Word as crate::word::Valued>::BITS,
                "precondition: the fraction is at most the width"
            )
        };
        strict_whole(self, Beside::Ceil)
    }

    #[inline]
    #[track_caller]
    fn strict_round(self) -> Self {
        const {
            assert!(
                Self::FRACTION <= <Self::Word as crate::word::Valued>::BITS,
                "precondition: the fraction is at most the width"
            )
        };
        strict_whole(self, Beside::Round)
    }

    #[inline]
    #[track_caller]
    fn strict_round_ties_even(self) -> Self {
        const {
            assert!(
                Self::FRACTION <= <Self::Word as crate::word::Valued>::BITS,
                "precondition: the fraction is at most the width"
            )
        };
        strict_whole(self, Beside::RoundTiesEven)
    }

    #[inline]
    #[track_caller]
    fn unwrapped_floor(self) -> Self {
        const {
            assert!(
                Self::FRACTION <= <Self::Word as crate::word::Valued>::BITS,
                "precondition: the fraction is at most the width"
            )
        };
        strict_whole(self, Beside::Floor)
    }

    #[inline]
    #[track_caller]
    fn unwrapped_ceil(self) -> Self {
        const {
            assert!(
                Self::FRACTION <= <Self::Word as crate::word::Valued>::BITS,
                "precondition: the fraction is at most the width"
            )
        };
        strict_whole(self, Beside::Ceil)
    }

    #[inline]
    #[track_caller]
    fn unwrapped_round(self) -> Self {
        const {
            assert!(
                Self::FRACTION <= <Self::Word as crate::word::Valued>::BITS,
                "precondition: the fraction is at most the width"
            )
        };
        strict_whole(self, Beside::Round)
    }

    #[inline]
    #[track_caller]
    fn unwrapped_round_ties_even(self) -> Self {
        const {
            assert!(
                Self::FRACTION <= <Self::Word as crate::word::Valued>::BITS,
                "precondition: the fraction is at most the width"
            )
        };
        strict_whole(self, Beside::RoundTiesEven)
    }
}
