// Made by `make package` of crates/fixed_cast/src/from_num.rt, which is proved: changes go there.

//! Conversions from numbers of other formats, integers, floats and `bool`.

use crate::cast::numeric::Numeric;
use crate::cast::policies::{checked_num, exact_num, overflowing_num, strict_num, wrapping_num};
use crate::cast::source::Source;
use crate::word::Rounding;

/// Conversions to a number of a format or an integer, by each policy. They round as
/// [`Source::DEFAULT`](crate::cast::Source) of the source says, which is down between formats, or as named in the forms
/// `.._round`.
pub trait FromNum: Numeric {
    /// Returns the number. Preconditions: the source is finite, and the number fits.
    ///
    /// # Examples
    ///
    /// ```
    /// use zugyelmas::prelude::*;
    /// type Number = FixedI8<4>; // from -8 to 7.9375
    /// let number = Number::from_num::<f64>;
    ///
    /// assert_eq!(Number::from_num(3), number(3.0));
    /// // 1.62109375, rounded down
    /// assert_eq!(Number::from_num(FixedI16::<8>::from_bits(415)), number(1.5625));
    /// // half of a unit: a float's tie, to the even number
    /// assert_eq!(Number::from_num(0.03125), number(0.0));
    /// ```
    ///
    /// ```should_panic
    /// # use zugyelmas::prelude::*;
    /// # type Number = FixedI8<4>; // from -8 to 7.9375
    /// # let number = Number::from_num::<f64>;
    /// # std::panic::set_hook(Box::new(|_| {}));
    /// Number::from_num(f64::NAN); // no number
    /// ```
    ///
    /// # Panics
    ///
    /// With debug assertions, panics unless there is a number and it fits. Without them, the result is wrapped.
    ///
    /// # Proved
    ///
    /// ```text
    /// requires { IsSome (checked Self.Word.SIGNED Self.Word.BITS (S.exact source Self.FRACTION S.DEFAULT)) }
    /// ensures { Some (Self.units result) ≡ S.exact source Self.FRACTION S.DEFAULT }
    /// ```
    ///
    /// Definitions: [`checked`].
    ///
    /// [`checked`]: crate::definitions::word_policies
    #[must_use]
    fn from_num<S: Source>(source: S) -> Self;

    /// Returns the number, or `None` if there is none or it does not fit.
    ///
    /// # Examples
    ///
    /// ```
    /// use zugyelmas::prelude::*;
    /// type Number = FixedI8<4>; // from -8 to 7.9375
    /// let number = Number::from_num::<f64>;
    ///
    /// assert_eq!(Number::checked_from_num(3), Some(number(3.0)));
    /// // 1.62109375, rounded down
    /// assert_eq!(Number::checked_from_num(FixedI16::<8>::from_bits(415)), Some(number(1.5625)));
    /// // half of a unit: a float's tie, to the even number
    /// assert_eq!(Number::checked_from_num(0.03125), Some(number(0.0)));
    /// assert_eq!(Number::checked_from_num(9), None); // 9 does not fit
    /// assert_eq!(Number::checked_from_num(f64::NAN), None); // no number
    /// ```
    ///
    /// # Proved
    ///
    /// ```text
    /// ensures { option_map Self.units result
    ///     ≡ checked Self.Word.SIGNED Self.Word.BITS (S.exact source Self.FRACTION S.DEFAULT) }
    /// ```
    ///
    /// Definitions: [`checked`].
    ///
    /// [`checked`]: crate::definitions::word_policies
    #[must_use]
    fn checked_from_num<S: Source>(source: S) -> Option<Self>;

    /// Returns the number, wrapped, and whether it does not fit. Precondition: the source is finite.
    ///
    /// # Examples
    ///
    /// ```
    /// use zugyelmas::prelude::*;
    /// type Number = FixedI8<4>; // from -8 to 7.9375
    /// let number = Number::from_num::<f64>;
    ///
    /// assert_eq!(Number::overflowing_from_num(3), (number(3.0), false));
    /// // 1.62109375, rounded down
    /// assert_eq!(Number::overflowing_from_num(FixedI16::<8>::from_bits(415)), (number(1.5625), false));
    /// // half of a unit: a float's tie, to the even number
    /// assert_eq!(Number::overflowing_from_num(0.03125), (number(0.0), false));
    /// assert_eq!(Number::overflowing_from_num(9), (number(-7.0), true)); // 9 does not fit
    /// ```
    ///
    /// ```should_panic
    /// # use zugyelmas::prelude::*;
    /// # type Number = FixedI8<4>; // from -8 to 7.9375
    /// # let number = Number::from_num::<f64>;
    /// # std::panic::set_hook(Box::new(|_| {}));
    /// Number::overflowing_from_num(f64::NAN); // no number
    /// ```
    ///
    /// # Panics
    ///
    /// Panics unless there is a number.
    ///
    /// # Proved
    ///
    /// ```text
    /// requires { IsSome (S.exact source Self.FRACTION S.DEFAULT) }
    /// ensures { Some (Self.units result.0, result.1)
    ///     ≡ overflowing Self.Word.SIGNED Self.Word.BITS (S.exact source Self.FRACTION S.DEFAULT) }
    /// ```
    ///
    /// Definitions: [`overflowing`].
    ///
    /// [`overflowing`]: crate::definitions::word_policies
    #[must_use]
    fn overflowing_from_num<S: Source>(source: S) -> (Self, bool);

    /// Returns the number, wrapped. Precondition: the source is finite.
    ///
    /// # Examples
    ///
    /// ```
    /// use zugyelmas::prelude::*;
    /// type Number = FixedI8<4>; // from -8 to 7.9375
    /// let number = Number::from_num::<f64>;
    ///
    /// assert_eq!(Number::wrapping_from_num(3), number(3.0));
    /// // 1.62109375, rounded down
    /// assert_eq!(Number::wrapping_from_num(FixedI16::<8>::from_bits(415)), number(1.5625));
    /// // half of a unit: a float's tie, to the even number
    /// assert_eq!(Number::wrapping_from_num(0.03125), number(0.0));
    /// assert_eq!(Number::wrapping_from_num(9), number(-7.0)); // 9 does not fit
    /// ```
    ///
    /// ```should_panic
    /// # use zugyelmas::prelude::*;
    /// # type Number = FixedI8<4>; // from -8 to 7.9375
    /// # let number = Number::from_num::<f64>;
    /// # std::panic::set_hook(Box::new(|_| {}));
    /// Number::wrapping_from_num(f64::NAN); // no number
    /// ```
    ///
    /// # Panics
    ///
    /// Panics unless there is a number.
    ///
    /// # Proved
    ///
    /// ```text
    /// requires { IsSome (S.exact source Self.FRACTION S.DEFAULT) }
    /// ensures { Some (Self.units result)
    ///     ≡ wrapping Self.Word.SIGNED Self.Word.BITS (S.exact source Self.FRACTION S.DEFAULT) }
    /// ```
    ///
    /// Definitions: [`wrapping`].
    ///
    /// [`wrapping`]: crate::definitions::word_policies
    #[must_use]
    fn wrapping_from_num<S: Source>(source: S) -> Self;

    /// Returns the number, saturated. An infinity becomes an end of the range. Precondition: the source is not a NaN.
    ///
    /// # Examples
    ///
    /// ```
    /// use zugyelmas::prelude::*;
    /// type Number = FixedI8<4>; // from -8 to 7.9375
    /// let number = Number::from_num::<f64>;
    ///
    /// assert_eq!(Number::saturating_from_num(3), number(3.0));
    /// // 1.62109375, rounded down
    /// assert_eq!(Number::saturating_from_num(FixedI16::<8>::from_bits(415)), number(1.5625));
    /// // half of a unit: a float's tie, to the even number
    /// assert_eq!(Number::saturating_from_num(0.03125), number(0.0));
    /// assert_eq!(Number::saturating_from_num(9), Number::MAX); // 9 does not fit
    /// ```
    ///
    /// ```should_panic
    /// # use zugyelmas::prelude::*;
    /// # type Number = FixedI8<4>; // from -8 to 7.9375
    /// # let number = Number::from_num::<f64>;
    /// # std::panic::set_hook(Box::new(|_| {}));
    /// Number::saturating_from_num(f64::NAN); // no number
    /// ```
    ///
    /// # Panics
    ///
    /// Panics unless there is a number.
    ///
    /// # Proved
    ///
    /// ```text
    /// requires { IsSome (S.saturated Self.Word.SIGNED Self.Word.BITS source Self.FRACTION S.DEFAULT) }
    /// ensures { Some (Self.units result)
    ///     ≡ S.saturated Self.Word.SIGNED Self.Word.BITS source Self.FRACTION S.DEFAULT }
    /// ```
    #[must_use]
    fn saturating_from_num<S: Source>(source: S) -> Self;

    /// Returns the number. Preconditions: the source is finite, and the number fits.
    ///
    /// # Examples
    ///
    /// ```
    /// use zugyelmas::prelude::*;
    /// type Number = FixedI8<4>; // from -8 to 7.9375
    /// let number = Number::from_num::<f64>;
    ///
    /// assert_eq!(Number::strict_from_num(3), number(3.0));
    /// // 1.62109375, rounded down
    /// assert_eq!(Number::strict_from_num(FixedI16::<8>::from_bits(415)), number(1.5625));
    /// // half of a unit: a float's tie, to the even number
    /// assert_eq!(Number::strict_from_num(0.03125), number(0.0));
    /// ```
    ///
    /// ```should_panic
    /// # use zugyelmas::prelude::*;
    /// # type Number = FixedI8<4>; // from -8 to 7.9375
    /// # let number = Number::from_num::<f64>;
    /// # std::panic::set_hook(Box::new(|_| {}));
    /// Number::strict_from_num(9); // 9 does not fit
    /// ```
    ///
    /// ```should_panic
    /// # use zugyelmas::prelude::*;
    /// # type Number = FixedI8<4>; // from -8 to 7.9375
    /// # let number = Number::from_num::<f64>;
    /// # std::panic::set_hook(Box::new(|_| {}));
    /// Number::strict_from_num(f64::NAN); // no number
    /// ```
    ///
    /// # Panics
    ///
    /// Panics unless there is a number and it fits.
    ///
    /// # Proved
    ///
    /// ```text
    /// requires { IsSome (checked Self.Word.SIGNED Self.Word.BITS (S.exact source Self.FRACTION S.DEFAULT)) }
    /// ensures { Some (Self.units result) ≡ S.exact source Self.FRACTION S.DEFAULT }
    /// ```
    ///
    /// Definitions: [`checked`].
    ///
    /// [`checked`]: crate::definitions::word_policies
    #[must_use]
    fn strict_from_num<S: Source>(source: S) -> Self;

    /// Returns the number. Preconditions: the source is finite, and the number fits.
    ///
    /// # Examples
    ///
    /// ```
    /// use zugyelmas::prelude::*;
    /// type Number = FixedI8<4>; // from -8 to 7.9375
    /// let number = Number::from_num::<f64>;
    ///
    /// assert_eq!(Number::unwrapped_from_num(3), number(3.0));
    /// // 1.62109375, rounded down
    /// assert_eq!(Number::unwrapped_from_num(FixedI16::<8>::from_bits(415)), number(1.5625));
    /// // half of a unit: a float's tie, to the even number
    /// assert_eq!(Number::unwrapped_from_num(0.03125), number(0.0));
    /// ```
    ///
    /// ```should_panic
    /// # use zugyelmas::prelude::*;
    /// # type Number = FixedI8<4>; // from -8 to 7.9375
    /// # let number = Number::from_num::<f64>;
    /// # std::panic::set_hook(Box::new(|_| {}));
    /// Number::unwrapped_from_num(9); // 9 does not fit
    /// ```
    ///
    /// ```should_panic
    /// # use zugyelmas::prelude::*;
    /// # type Number = FixedI8<4>; // from -8 to 7.9375
    /// # let number = Number::from_num::<f64>;
    /// # std::panic::set_hook(Box::new(|_| {}));
    /// Number::unwrapped_from_num(f64::NAN); // no number
    /// ```
    ///
    /// # Panics
    ///
    /// Panics unless there is a number and it fits.
    ///
    /// # Proved
    ///
    /// ```text
    /// requires { IsSome (checked Self.Word.SIGNED Self.Word.BITS (S.exact source Self.FRACTION S.DEFAULT)) }
    /// ensures { Some (Self.units result) ≡ S.exact source Self.FRACTION S.DEFAULT }
    /// ```
    ///
    /// Definitions: [`checked`].
    ///
    /// [`checked`]: crate::definitions::word_policies
    #[must_use]
    fn unwrapped_from_num<S: Source>(source: S) -> Self;

    /// Returns the number, rounded as named, or `None` if it does not fit or the source is not finite.
    ///
    /// # Examples
    ///
    /// ```
    /// use zugyelmas::prelude::*;
    /// use zugyelmas::word::Rounding;
    /// type Number = FixedI8<4>; // from -8 to 7.9375
    /// let number = Number::from_num::<f64>;
    ///
    /// // -1.53125
    /// assert_eq!(Number::checked_from_num_round(FixedI16::<8>::from_bits(-392), Rounding::Zero), Some(number(-1.5)));
    /// // 1.53125, a tie
    /// assert_eq!(Number::checked_from_num_round(FixedI16::<8>::from_bits(392), Rounding::Even), Some(number(1.5)));
    /// // 1.59375, a tie
    /// assert_eq!(Number::checked_from_num_round(FixedI16::<8>::from_bits(408), Rounding::Even), Some(number(1.625)));
    /// // 9 does not fit
    /// assert_eq!(Number::checked_from_num_round(9, Rounding::Even), None);
    /// ```
    ///
    /// # Proved
    ///
    /// ```text
    /// ensures { option_map Self.units result
    ///     ≡ checked Self.Word.SIGNED Self.Word.BITS (S.exact source Self.FRACTION rounding) }
    /// ```
    ///
    /// Definitions: [`checked`].
    ///
    /// [`checked`]: crate::definitions::word_policies
    #[must_use]
    fn checked_from_num_round<S: Source>(source: S, rounding: Rounding) -> Option<Self>;

    /// Returns the number, rounded as named and wrapped, and whether it does not fit. Precondition: the source is
    /// finite.
    ///
    /// # Examples
    ///
    /// ```
    /// use zugyelmas::prelude::*;
    /// use zugyelmas::word::Rounding;
    /// type Number = FixedI8<4>; // from -8 to 7.9375
    /// let number = Number::from_num::<f64>;
    ///
    /// // -1.53125
    /// assert_eq!(Number::overflowing_from_num_round(FixedI16::<8>::from_bits(-392), Rounding::Zero), (number(-1.5), false));
    /// // 1.53125, a tie
    /// assert_eq!(Number::overflowing_from_num_round(FixedI16::<8>::from_bits(392), Rounding::Even), (number(1.5), false));
    /// // 1.59375, a tie
    /// assert_eq!(Number::overflowing_from_num_round(FixedI16::<8>::from_bits(408), Rounding::Even), (number(1.625), false));
    /// // 9 does not fit
    /// assert_eq!(Number::overflowing_from_num_round(9, Rounding::Even), (number(-7.0), true));
    /// ```
    ///
    /// # Panics
    ///
    /// Panics unless there is a number.
    ///
    /// # Proved
    ///
    /// ```text
    /// requires { IsSome (S.exact source Self.FRACTION rounding) }
    /// ensures { Some (Self.units result.0, result.1)
    ///     ≡ overflowing Self.Word.SIGNED Self.Word.BITS (S.exact source Self.FRACTION rounding) }
    /// ```
    ///
    /// Definitions: [`overflowing`].
    ///
    /// [`overflowing`]: crate::definitions::word_policies
    #[must_use]
    fn overflowing_from_num_round<S: Source>(source: S, rounding: Rounding) -> (Self, bool);

    /// Returns the number, rounded as named and wrapped. Precondition: the source is finite.
    ///
    /// # Examples
    ///
    /// ```
    /// use zugyelmas::prelude::*;
    /// use zugyelmas::word::Rounding;
    /// type Number = FixedI8<4>; // from -8 to 7.9375
    /// let number = Number::from_num::<f64>;
    ///
    /// // -1.53125
    /// assert_eq!(Number::wrapping_from_num_round(FixedI16::<8>::from_bits(-392), Rounding::Zero), number(-1.5));
    /// // 1.53125, a tie
    /// assert_eq!(Number::wrapping_from_num_round(FixedI16::<8>::from_bits(392), Rounding::Even), number(1.5));
    /// // 1.59375, a tie
    /// assert_eq!(Number::wrapping_from_num_round(FixedI16::<8>::from_bits(408), Rounding::Even), number(1.625));
    /// // 9 does not fit
    /// assert_eq!(Number::wrapping_from_num_round(9, Rounding::Even), number(-7.0));
    /// ```
    ///
    /// # Panics
    ///
    /// Panics unless there is a number.
    ///
    /// # Proved
    ///
    /// ```text
    /// requires { IsSome (S.exact source Self.FRACTION rounding) }
    /// ensures { Some (Self.units result)
    ///     ≡ wrapping Self.Word.SIGNED Self.Word.BITS (S.exact source Self.FRACTION rounding) }
    /// ```
    ///
    /// Definitions: [`wrapping`].
    ///
    /// [`wrapping`]: crate::definitions::word_policies
    #[must_use]
    fn wrapping_from_num_round<S: Source>(source: S, rounding: Rounding) -> Self;

    /// Returns the number, rounded as named and saturated. An infinity becomes an end of the range. Precondition: the
    /// source is not a NaN.
    ///
    /// # Examples
    ///
    /// ```
    /// use zugyelmas::prelude::*;
    /// use zugyelmas::word::Rounding;
    /// type Number = FixedI8<4>; // from -8 to 7.9375
    /// let number = Number::from_num::<f64>;
    ///
    /// // -1.53125
    /// assert_eq!(Number::saturating_from_num_round(FixedI16::<8>::from_bits(-392), Rounding::Zero), number(-1.5));
    /// // 1.53125, a tie
    /// assert_eq!(Number::saturating_from_num_round(FixedI16::<8>::from_bits(392), Rounding::Even), number(1.5));
    /// // 1.59375, a tie
    /// assert_eq!(Number::saturating_from_num_round(FixedI16::<8>::from_bits(408), Rounding::Even), number(1.625));
    /// // 9 does not fit
    /// assert_eq!(Number::saturating_from_num_round(9, Rounding::Even), Number::MAX);
    /// ```
    ///
    /// # Panics
    ///
    /// Panics unless there is a number.
    ///
    /// # Proved
    ///
    /// ```text
    /// requires { IsSome (S.saturated Self.Word.SIGNED Self.Word.BITS source Self.FRACTION rounding) }
    /// ensures { Some (Self.units result)
    ///     ≡ S.saturated Self.Word.SIGNED Self.Word.BITS source Self.FRACTION rounding }
    /// ```
    #[must_use]
    fn saturating_from_num_round<S: Source>(source: S, rounding: Rounding) -> Self;

    /// Returns the number, rounded as named. Preconditions: the source is finite, and the number fits.
    ///
    /// # Examples
    ///
    /// ```
    /// use zugyelmas::prelude::*;
    /// use zugyelmas::word::Rounding;
    /// type Number = FixedI8<4>; // from -8 to 7.9375
    /// let number = Number::from_num::<f64>;
    ///
    /// // -1.53125
    /// assert_eq!(Number::from_num_round(FixedI16::<8>::from_bits(-392), Rounding::Zero), number(-1.5));
    /// // 1.53125, a tie
    /// assert_eq!(Number::from_num_round(FixedI16::<8>::from_bits(392), Rounding::Even), number(1.5));
    /// // 1.59375, a tie
    /// assert_eq!(Number::from_num_round(FixedI16::<8>::from_bits(408), Rounding::Even), number(1.625));
    /// ```
    ///
    /// # Panics
    ///
    /// With debug assertions, panics unless there is a number and it fits. Without them, the result is wrapped.
    ///
    /// # Proved
    ///
    /// ```text
    /// requires { IsSome (checked Self.Word.SIGNED Self.Word.BITS (S.exact source Self.FRACTION rounding)) }
    /// ensures { Some (Self.units result) ≡ S.exact source Self.FRACTION rounding }
    /// ```
    ///
    /// Definitions: [`checked`].
    ///
    /// [`checked`]: crate::definitions::word_policies
    #[must_use]
    fn from_num_round<S: Source>(source: S, rounding: Rounding) -> Self;

    /// Returns the number, rounded as named. Preconditions: the source is finite, and the number fits.
    ///
    /// # Examples
    ///
    /// ```
    /// use zugyelmas::prelude::*;
    /// use zugyelmas::word::Rounding;
    /// type Number = FixedI8<4>; // from -8 to 7.9375
    /// let number = Number::from_num::<f64>;
    ///
    /// // -1.53125
    /// assert_eq!(Number::strict_from_num_round(FixedI16::<8>::from_bits(-392), Rounding::Zero), number(-1.5));
    /// // 1.53125, a tie
    /// assert_eq!(Number::strict_from_num_round(FixedI16::<8>::from_bits(392), Rounding::Even), number(1.5));
    /// // 1.59375, a tie
    /// assert_eq!(Number::strict_from_num_round(FixedI16::<8>::from_bits(408), Rounding::Even), number(1.625));
    /// ```
    ///
    /// ```should_panic
    /// # use zugyelmas::prelude::*;
    /// # use zugyelmas::word::Rounding;
    /// # type Number = FixedI8<4>; // from -8 to 7.9375
    /// # let number = Number::from_num::<f64>;
    /// # std::panic::set_hook(Box::new(|_| {}));
    /// Number::strict_from_num_round(9, Rounding::Even); // 9 does not fit
    /// ```
    ///
    /// # Panics
    ///
    /// Panics unless there is a number and it fits.
    ///
    /// # Proved
    ///
    /// ```text
    /// requires { IsSome (checked Self.Word.SIGNED Self.Word.BITS (S.exact source Self.FRACTION rounding)) }
    /// ensures { Some (Self.units result) ≡ S.exact source Self.FRACTION rounding }
    /// ```
    ///
    /// Definitions: [`checked`].
    ///
    /// [`checked`]: crate::definitions::word_policies
    #[must_use]
    fn strict_from_num_round<S: Source>(source: S, rounding: Rounding) -> Self;

    /// Returns the number, rounded as named. Preconditions: the source is finite, and the number fits.
    ///
    /// # Examples
    ///
    /// ```
    /// use zugyelmas::prelude::*;
    /// use zugyelmas::word::Rounding;
    /// type Number = FixedI8<4>; // from -8 to 7.9375
    /// let number = Number::from_num::<f64>;
    ///
    /// // -1.53125
    /// assert_eq!(Number::unwrapped_from_num_round(FixedI16::<8>::from_bits(-392), Rounding::Zero), number(-1.5));
    /// // 1.53125, a tie
    /// assert_eq!(Number::unwrapped_from_num_round(FixedI16::<8>::from_bits(392), Rounding::Even), number(1.5));
    /// // 1.59375, a tie
    /// assert_eq!(Number::unwrapped_from_num_round(FixedI16::<8>::from_bits(408), Rounding::Even), number(1.625));
    /// ```
    ///
    /// ```should_panic
    /// # use zugyelmas::prelude::*;
    /// # use zugyelmas::word::Rounding;
    /// # type Number = FixedI8<4>; // from -8 to 7.9375
    /// # let number = Number::from_num::<f64>;
    /// # std::panic::set_hook(Box::new(|_| {}));
    /// Number::unwrapped_from_num_round(9, Rounding::Even); // 9 does not fit
    /// ```
    ///
    /// # Panics
    ///
    /// Panics unless there is a number and it fits.
    ///
    /// # Proved
    ///
    /// ```text
    /// requires { IsSome (checked Self.Word.SIGNED Self.Word.BITS (S.exact source Self.FRACTION rounding)) }
    /// ensures { Some (Self.units result) ≡ S.exact source Self.FRACTION rounding }
    /// ```
    ///
    /// Definitions: [`checked`].
    ///
    /// [`checked`]: crate::definitions::word_policies
    #[must_use]
    fn unwrapped_from_num_round<S: Source>(source: S, rounding: Rounding) -> Self;
}

impl<N: Numeric> FromNum for N {
    #[inline]
    #[track_caller]
    fn from_num<S: Source>(source: S) -> Self {
        Self::from_num_round(source, S::DEFAULT)
    }

    #[inline]
    fn checked_from_num<S: Source>(source: S) -> Option<Self> {
        Self::checked_from_num_round(source, S::DEFAULT)
    }

    #[inline]
    #[track_caller]
    fn overflowing_from_num<S: Source>(source: S) -> (Self, bool) {
        Self::overflowing_from_num_round(source, S::DEFAULT)
    }

    #[inline]
    #[track_caller]
    fn wrapping_from_num<S: Source>(source: S) -> Self {
        Self::wrapping_from_num_round(source, S::DEFAULT)
    }

    #[inline]
    #[track_caller]
    fn saturating_from_num<S: Source>(source: S) -> Self {
        Self::saturating_from_num_round(source, S::DEFAULT)
    }

    #[inline]
    #[track_caller]
    fn strict_from_num<S: Source>(source: S) -> Self {
        Self::strict_from_num_round(source, S::DEFAULT)
    }

    #[inline]
    #[track_caller]
    fn unwrapped_from_num<S: Source>(source: S) -> Self {
        Self::strict_from_num_round(source, S::DEFAULT)
    }

    #[inline]
    fn checked_from_num_round<S: Source>(source: S, rounding: Rounding) -> Option<Self> {
        checked_num(source.outcome(Self::FRACTION, rounding)?)
    }

    #[inline]
    #[track_caller]
    fn overflowing_from_num_round<S: Source>(source: S, rounding: Rounding) -> (Self, bool) {
        overflowing_num(source.outcome(Self::FRACTION, rounding).unwrap())
    }

    #[inline]
    #[track_caller]
    fn wrapping_from_num_round<S: Source>(source: S, rounding: Rounding) -> Self {
        wrapping_num(source.outcome(Self::FRACTION, rounding).unwrap())
    }

    #[inline]
    #[track_caller]
    fn saturating_from_num_round<S: Source>(source: S, rounding: Rounding) -> Self {
        Self::from_word(source.saturated(Self::FRACTION, rounding))
    }

    #[inline]
    #[track_caller]
    fn from_num_round<S: Source>(source: S, rounding: Rounding) -> Self {
        exact_num(source.outcome(Self::FRACTION, rounding).unwrap())
    }

    #[inline]
    #[track_caller]
    fn strict_from_num_round<S: Source>(source: S, rounding: Rounding) -> Self {
        strict_num(source.outcome(Self::FRACTION, rounding).unwrap())
    }

    #[inline]
    #[track_caller]
    fn unwrapped_from_num_round<S: Source>(source: S, rounding: Rounding) -> Self {
        Self::strict_from_num_round(source, rounding)
    }
}
