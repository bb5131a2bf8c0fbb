// Made by `make package` of crates/fixed_cast/src/to_num.rt, which is proved: changes go there.

//! The conversions of `FromNum`, called on the source, and conversions to floats.

use crate::cast::from_num::FromNum;
use crate::cast::numeric::Numeric;
use crate::cast::source::Source;
use crate::cast::target::Target;
use crate::word::Rounding;

/// Conversions of a number to one of another format, to an integer or to a float, by each policy. They round as
/// [`FromNum`](crate::cast::FromNum) does. A float is the nearest one, ties to even, and always fits.
pub trait ToNum: Source {
    /// Returns the number. Preconditions: the source is finite, and the number fits.
    ///
    /// # Examples
    ///
    /// ```
    /// use zugyelmas::prelude::*;
    /// type Number = FixedI8<4>; // from -8 to 7.9375
    /// let number = Number::from_num::<f64>;
    ///
    /// assert_eq!(number(1.5).to_num::<FixedI16<8>>(), FixedI16::from_bits(384)); // 1.5
    /// assert_eq!(number(-1.5).to_num::<i32>(), -2); // rounded down
    /// assert_eq!(number(-1.5).to_num::<f64>(), -1.5);
    /// ```
    ///
    /// # Compile errors
    ///
    /// Compiles only if the fraction is at most the width, if the result is a float.
    ///
    /// # Panics
    ///
    /// With debug assertions, panics unless there is a number and it fits. Without them, the result is wrapped.
    ///
    /// # Proved
    ///
    /// ```text
    /// requires format { D.is_format }
    /// requires fits { IsSome (D.as_checked (D.exact self)) }
    /// ensures { Some (D.exactly result) ≡ D.exact self }
    /// ```
    #[must_use]
    fn to_num<D: Target<Self>>(self) -> D;

    /// Returns the number, or `None` if there is none or it does not fit.
    ///
    /// # Examples
    ///
    /// ```
    /// use zugyelmas::prelude::*;
    /// type Number = FixedI8<4>; // from -8 to 7.9375
    /// let number = Number::from_num::<f64>;
    ///
    /// // 1.5
    /// assert_eq!(number(1.5).checked_to_num::<FixedI16<8>>(), Some(FixedI16::from_bits(384)));
    /// assert_eq!(number(-1.5).checked_to_num::<i32>(), Some(-2)); // rounded down
    /// assert_eq!(number(-1.5).checked_to_num::<f64>(), Some(-1.5));
    /// assert_eq!(number(-1.5).checked_to_num::<u8>(), None); // -2 does not fit
    /// ```
    ///
    /// # Compile errors
    ///
    /// Compiles only if the fraction is at most the width, if the result is a float.
    ///
    /// # Proved
    ///
    /// ```text
    /// requires { D.is_format }
    /// ensures { option_map D.exactly result ≡ D.as_checked (D.exact self) }
    /// ```
    #[must_use]
    fn checked_to_num<D: Target<Self>>(self) -> Option<D>;

    /// Returns the number, wrapped, and whether it does not fit. Precondition: the source is finite.
    ///
    /// # Examples
    ///
    /// ```
    /// use zugyelmas::prelude::*;
    /// type Number = FixedI8<4>; // from -8 to 7.9375
    /// let number = Number::from_num::<f64>;
    ///
    /// // 1.5
    /// assert_eq!(number(1.5).overflowing_to_num::<FixedI16<8>>(), (FixedI16::from_bits(384), false));
    /// assert_eq!(number(-1.5).overflowing_to_num::<i32>(), (-2, false)); // rounded down
    /// assert_eq!(number(-1.5).overflowing_to_num::<f64>(), (-1.5, false));
    /// assert_eq!(number(-1.5).overflowing_to_num::<u8>(), (254, true)); // -2 does not fit
    /// ```
    ///
    /// # Compile errors
    ///
    /// Compiles only if the fraction is at most the width, if the result is a float.
    ///
    /// # Panics
    ///
    /// Panics unless there is a number.
    ///
    /// # Proved
    ///
    /// ```text
    /// requires format { D.is_format }
    /// requires some { IsSome (D.exact self) }
    /// ensures { Some (D.exactly result.0, result.1) ≡ D.as_overflowing (D.exact self) }
    /// ```
    #[must_use]
    fn overflowing_to_num<D: Target<Self>>(self) -> (D, bool);

    /// Returns the number, wrapped. Precondition: the source is finite.
    ///
    /// # Examples
    ///
    /// ```
    /// use zugyelmas::prelude::*;
    /// type Number = FixedI8<4>; // from -8 to 7.9375
    /// let number = Number::from_num::<f64>;
    ///
    /// // 1.5
    /// assert_eq!(number(1.5).wrapping_to_num::<FixedI16<8>>(), FixedI16::from_bits(384));
    /// assert_eq!(number(-1.5).wrapping_to_num::<i32>(), -2); // rounded down
    /// assert_eq!(number(-1.5).wrapping_to_num::<f64>(), -1.5);
    /// assert_eq!(number(-1.5).wrapping_to_num::<u8>(), 254); // -2 does not fit
    /// ```
    ///
    /// # Compile errors
    ///
    /// Compiles only if the fraction is at most the width, if the result is a float.
    ///
    /// # Panics
    ///
    /// Panics unless there is a number.
    ///
    /// # Proved
    ///
    /// ```text
    /// requires format { D.is_format }
    /// requires some { IsSome (D.exact self) }
    /// ensures { Some (D.exactly result) ≡ D.as_wrapping (D.exact self) }
    /// ```
    #[must_use]
    fn wrapping_to_num<D: Target<Self>>(self) -> D;

    /// Returns the number, saturated. An infinity becomes an end of the range. Precondition: the source is not a NaN.
    ///
    /// # Examples
    ///
    /// ```
    /// use zugyelmas::prelude::*;
    /// type Number = FixedI8<4>; // from -8 to 7.9375
    /// let number = Number::from_num::<f64>;
    ///
    /// // 1.5
    /// assert_eq!(number(1.5).saturating_to_num::<FixedI16<8>>(), FixedI16::from_bits(384));
    /// assert_eq!(number(-1.5).saturating_to_num::<i32>(), -2); // rounded down
    /// assert_eq!(number(-1.5).saturating_to_num::<f64>(), -1.5);
    /// assert_eq!(number(-1.5).saturating_to_num::<u8>(), 0); // -2 does not fit
    /// ```
    ///
    /// # Compile errors
    ///
    /// Compiles only if the fraction is at most the width, if the result is a float.
    ///
    /// # Panics
    ///
    /// Panics unless there is a number.
    ///
    /// # Proved
    ///
    /// ```text
    /// requires format { D.is_format }
    /// requires some { IsSome (D.saturated self) }
    /// ensures { Some (D.exactly result) ≡ D.saturated self }
    /// ```
    #[must_use]
    fn saturating_to_num<D: Target<Self>>(self) -> D;

    /// Returns the number. Preconditions: the source is finite, and the number fits.
    ///
    /// # Examples
    ///
    /// ```
    /// use zugyelmas::prelude::*;
    /// type Number = FixedI8<4>; // from -8 to 7.9375
    /// let number = Number::from_num::<f64>;
    ///
    /// // 1.5
    /// assert_eq!(number(1.5).strict_to_num::<FixedI16<8>>(), FixedI16::from_bits(384));
    /// assert_eq!(number(-1.5).strict_to_num::<i32>(), -2); // rounded down
    /// assert_eq!(number(-1.5).strict_to_num::<f64>(), -1.5);
    /// ```
    ///
    /// ```should_panic
    /// # use zugyelmas::prelude::*;
    /// # type Number = FixedI8<4>; // from -8 to 7.9375
    /// # let number = Number::from_num::<f64>;
    /// # std::panic::set_hook(Box::new(|_| {}));
    /// number(-1.5).strict_to_num::<u8>(); // -2 does not fit
    /// ```
    ///
    /// # Compile errors
    ///
    /// Compiles only if the fraction is at most the width, if the result is a float.
    ///
    /// # Panics
    ///
    /// Panics unless there is a number and it fits.
    ///
    /// # Proved
    ///
    /// ```text
    /// requires format { D.is_format }
    /// requires fits { IsSome (D.as_checked (D.exact self)) }
    /// ensures { Some (D.exactly result) ≡ D.exact self }
    /// ```
    #[must_use]
    fn strict_to_num<D: Target<Self>>(self) -> D;

    /// Returns the number. Preconditions: the source is finite, and the number fits.
    ///
    /// # Examples
    ///
    /// ```
    /// use zugyelmas::prelude::*;
    /// type Number = FixedI8<4>; // from -8 to 7.9375
    /// let number = Number::from_num::<f64>;
    ///
    /// // 1.5
    /// assert_eq!(number(1.5).unwrapped_to_num::<FixedI16<8>>(), FixedI16::from_bits(384));
    /// assert_eq!(number(-1.5).unwrapped_to_num::<i32>(), -2); // rounded down
    /// assert_eq!(number(-1.5).unwrapped_to_num::<f64>(), -1.5);
    /// ```
    ///
    /// ```should_panic
    /// # use zugyelmas::prelude::*;
    /// # type Number = FixedI8<4>; // from -8 to 7.9375
    /// # let number = Number::from_num::<f64>;
    /// # std::panic::set_hook(Box::new(|_| {}));
    /// number(-1.5).unwrapped_to_num::<u8>(); // -2 does not fit
    /// ```
    ///
    /// # Compile errors
    ///
    /// Compiles only if the fraction is at most the width, if the result is a float.
    ///
    /// # Panics
    ///
    /// Panics unless there is a number and it fits.
    ///
    /// # Proved
    ///
    /// ```text
    /// requires format { D.is_format }
    /// requires fits { IsSome (D.as_checked (D.exact self)) }
    /// ensures { Some (D.exactly result) ≡ D.exact self }
    /// ```
    #[must_use]
    fn unwrapped_to_num<D: Target<Self>>(self) -> D;

    /// Returns the number, rounded as named, or `None` if it does not fit or the source is not finite.
    ///
    /// # Examples
    ///
    /// ```
    /// use zugyelmas::prelude::*;
    /// use zugyelmas::word::Rounding;
    /// type Number = FixedI8<4>; // from -8 to 7.9375
    /// let number = Number::from_num::<f64>;
    ///
    /// assert_eq!(number(-2.5).checked_to_num_round::<i32>(Rounding::Zero), Some(-2));
    /// // a tie
    /// assert_eq!(number(2.5).checked_to_num_round::<i32>(Rounding::Even), Some(2));
    /// // a tie
    /// assert_eq!(number(3.5).checked_to_num_round::<i32>(Rounding::Even), Some(4));
    /// // -2 does not fit
    /// assert_eq!(number(-1.5).checked_to_num_round::<u8>(Rounding::Down), None);
    /// ```
    ///
    /// # Proved
    ///
    /// ```text
    /// ensures { option_map N.units result
    ///     ≡ checked N.Word.SIGNED N.Word.BITS (Self.exact self N.FRACTION rounding) }
    /// ```
    ///
    /// Definitions: [`checked`].
    ///
    /// [`checked`]: crate::definitions::word_policies
    #[must_use]
    fn checked_to_num_round<N: Numeric>(self, rounding: Rounding) -> Option<N>;

    /// Returns the number, rounded as named and wrapped, and whether it does not fit. Precondition: the source is
    /// finite.
    ///
    /// # Examples
    ///
    /// ```
    /// use zugyelmas::prelude::*;
    /// use zugyelmas::word::Rounding;
    /// type Number = FixedI8<4>; // from -8 to 7.9375
    /// let number = Number::from_num::<f64>;
    ///
    /// assert_eq!(number(-2.5).overflowing_to_num_round::<i32>(Rounding::Zero), (-2, false));
    /// // a tie
    /// assert_eq!(number(2.5).overflowing_to_num_round::<i32>(Rounding::Even), (2, false));
    /// // a tie
    /// assert_eq!(number(3.5).overflowing_to_num_round::<i32>(Rounding::Even), (4, false));
    /// // -2 does not fit
    /// assert_eq!(number(-1.5).overflowing_to_num_round::<u8>(Rounding::Down), (254, true));
    /// ```
    ///
    /// # Panics
    ///
    /// Panics unless there is a number.
    ///
    /// # Proved
    ///
    /// ```text
    /// requires { IsSome (Self.exact self N.FRACTION rounding) }
    /// ensures { Some (N.units result.0, result.1)
    ///     ≡ overflowing N.Word.SIGNED N.Word.BITS (Self.exact self N.FRACTION rounding) }
    /// ```
    ///
    /// Definitions: [`overflowing`].
    ///
    /// [`overflowing`]: crate::definitions::word_policies
    #[must_use]
    fn overflowing_to_num_round<N: Numeric>(self, rounding: Rounding) -> (N, bool);

    /// Returns the number, rounded as named and wrapped. Precondition: the source is finite.
    ///
    /// # Examples
    ///
    /// ```
    /// use zugyelmas::prelude::*;
    /// use zugyelmas::word::Rounding;
    /// type Number = FixedI8<4>; // from -8 to 7.9375
    /// let number = Number::from_num::<f64>;
    ///
    /// assert_eq!(number(-2.5).wrapping_to_num_round::<i32>(Rounding::Zero), -2);
    /// assert_eq!(number(2.5).wrapping_to_num_round::<i32>(Rounding::Even), 2); // a tie
    /// assert_eq!(number(3.5).wrapping_to_num_round::<i32>(Rounding::Even), 4); // a tie
    /// // -2 does not fit
    /// assert_eq!(number(-1.5).wrapping_to_num_round::<u8>(Rounding::Down), 254);
    /// ```
    ///
    /// # Panics
    ///
    /// Panics unless there is a number.
    ///
    /// # Proved
    ///
    /// ```text
    /// requires { IsSome (Self.exact self N.FRACTION rounding) }
    /// ensures { Some (N.units result)
    ///     ≡ wrapping N.Word.SIGNED N.Word.BITS (Self.exact self N.FRACTION rounding) }
    /// ```
    ///
    /// Definitions: [`wrapping`].
    ///
    /// [`wrapping`]: crate::definitions::word_policies
    #[must_use]
    fn wrapping_to_num_round<N: Numeric>(self, rounding: Rounding) -> N;

    /// Returns the number, rounded as named and saturated. An infinity becomes an end of the range. Precondition: the
    /// source is not a NaN.
    ///
    /// # Examples
    ///
    /// ```
    /// use zugyelmas::prelude::*;
    /// use zugyelmas::word::Rounding;
    /// type Number = FixedI8<4>; // from -8 to 7.9375
    /// let number = Number::from_num::<f64>;
    ///
    /// assert_eq!(number(-2.5).saturating_to_num_round::<i32>(Rounding::Zero), -2);
    /// assert_eq!(number(2.5).saturating_to_num_round::<i32>(Rounding::Even), 2); // a tie
    /// assert_eq!(number(3.5).saturating_to_num_round::<i32>(Rounding::Even), 4); // a tie
    /// // -2 does not fit
    /// assert_eq!(number(-1.5).saturating_to_num_round::<u8>(Rounding::Down), 0);
    /// ```
    ///
    /// # Panics
    ///
    /// Panics unless there is a number.
    ///
    /// # Proved
    ///
    /// ```text
    /// requires { IsSome (Self.saturated N.Word.SIGNED N.Word.BITS self N.FRACTION rounding) }
    /// ensures { Some (N.units result)
    ///     ≡ Self.saturated N.Word.SIGNED N.Word.BITS self N.FRACTION rounding }
    /// ```
    #[must_use]
    fn saturating_to_num_round<N: Numeric>(self, rounding: Rounding) -> N;

    /// Returns the number, rounded as named. Preconditions: the source is finite, and the number fits.
    ///
    /// # Examples
    ///
    /// ```
    /// use zugyelmas::prelude::*;
    /// use zugyelmas::word::Rounding;
    /// type Number = FixedI8<4>; // from -8 to 7.9375
    /// let number = Number::from_num::<f64>;
    ///
    /// assert_eq!(number(-2.5).to_num_round::<i32>(Rounding::Zero), -2);
    /// assert_eq!(number(2.5).to_num_round::<i32>(Rounding::Even), 2); // a tie
    /// assert_eq!(number(3.5).to_num_round::<i32>(Rounding::Even), 4); // a tie
    /// ```
    ///
    /// # Panics
    ///
    /// With debug assertions, panics unless there is a number and it fits. Without them, the result is wrapped.
    ///
    /// # Proved
    ///
    /// ```text
    /// requires { IsSome (checked N.Word.SIGNED N.Word.BITS (Self.exact self N.FRACTION rounding)) }
    /// ensures { Some (N.units result) ≡ Self.exact self N.FRACTION rounding }
    /// ```
    ///
    /// Definitions: [`checked`].
    ///
    /// [`checked`]: crate::definitions::word_policies
    #[must_use]
    fn to_num_round<N: Numeric>(self, rounding: Rounding) -> N;

    /// Returns the number, rounded as named. Preconditions: the source is finite, and the number fits.
    ///
    /// # Examples
    ///
    /// ```
    /// use zugyelmas::prelude::*;
    /// use zugyelmas::word::Rounding;
    /// type Number = FixedI8<4>; // from -8 to 7.9375
    /// let number = Number::from_num::<f64>;
    ///
    /// assert_eq!(number(-2.5).strict_to_num_round::<i32>(Rounding::Zero), -2);
    /// assert_eq!(number(2.5).strict_to_num_round::<i32>(Rounding::Even), 2); // a tie
    /// assert_eq!(number(3.5).strict_to_num_round::<i32>(Rounding::Even), 4); // a tie
    /// ```
    ///
    /// ```should_panic
    /// # use zugyelmas::prelude::*;
    /// # use zugyelmas::word::Rounding;
    /// # type Number = FixedI8<4>; // from -8 to 7.9375
    /// # let number = Number::from_num::<f64>;
    /// # std::panic::set_hook(Box::new(|_| {}));
    /// number(-1.5).strict_to_num_round::<u8>(Rounding::Down); // -2 does not fit
    /// ```
    ///
    /// # Panics
    ///
    /// Panics unless there is a number and it fits.
    ///
    /// # Proved
    ///
    /// ```text
    /// requires { IsSome (checked N.Word.SIGNED N.Word.BITS (Self.exact self N.FRACTION rounding)) }
    /// ensures { Some (N.units result) ≡ Self.exact self N.FRACTION rounding }
    /// ```
    ///
    /// Definitions: [`checked`].
    ///
    /// [`checked`]: crate::definitions::word_policies
    #[must_use]
    fn strict_to_num_round<N: Numeric>(self, rounding: Rounding) -> N;

    /// Returns the number, rounded as named. Preconditions: the source is finite, and the number fits.
    ///
    /// # Examples
    ///
    /// ```
    /// use zugyelmas::prelude::*;
    /// use zugyelmas::word::Rounding;
    /// type Number = FixedI8<4>; // from -8 to 7.9375
    /// let number = Number::from_num::<f64>;
    ///
    /// assert_eq!(number(-2.5).unwrapped_to_num_round::<i32>(Rounding::Zero), -2);
    /// assert_eq!(number(2.5).unwrapped_to_num_round::<i32>(Rounding::Even), 2); // a tie
    /// assert_eq!(number(3.5).unwrapped_to_num_round::<i32>(Rounding::Even), 4); // a tie
    /// ```
    ///
    /// ```should_panic
    /// # use zugyelmas::prelude::*;
    /// # use zugyelmas::word::Rounding;
    /// # type Number = FixedI8<4>; // from -8 to 7.9375
    /// # let number = Number::from_num::<f64>;
    /// # std::panic::set_hook(Box::new(|_| {}));
    /// number(-1.5).unwrapped_to_num_round::<u8>(Rounding::Down); // -2 does not fit
    /// ```
    ///
    /// # Panics
    ///
    /// Panics unless there is a number and it fits.
    ///
    /// # Proved
    ///
    /// ```text
    /// requires { IsSome (checked N.Word.SIGNED N.Word.BITS (Self.exact self N.FRACTION rounding)) }
    /// ensures { Some (N.units result) ≡ Self.exact self N.FRACTION rounding }
    /// ```
    ///
    /// Definitions: [`checked`].
    ///
    /// [`checked`]: crate::definitions::word_policies
    #[must_use]
    fn unwrapped_to_num_round<N: Numeric>(self, rounding: Rounding) -> N;
}

impl<S: Source> ToNum for S {
    #[inline]
    #[track_caller]
    fn to_num<D: Target<Self>>(self) -> D {
        D::from_source(self)
    }

    #[inline]
    #[track_caller]
    fn checked_to_num<D: Target<Self>>(self) -> Option<D> {
        D::checked_from_source(self)
    }

    #[inline]
    #[track_caller]
    fn overflowing_to_num<D: Target<Self>>(self) -> (D, bool) {
        D::overflowing_from_source(self)
    }

    #[inline]
    #[track_caller]
    fn wrapping_to_num<D: Target<Self>>(self) -> D {
        D::wrapping_from_source(self)
    }

    #[inline]
    #[track_caller]
    fn saturating_to_num<D: Target<Self>>(self) -> D {
        D::saturating_from_source(self)
    }

    #[inline]
    #[track_caller]
    fn strict_to_num<D: Target<Self>>(self) -> D {
        D::strict_from_source(self)
    }

    #[inline]
    #[track_caller]
    fn unwrapped_to_num<D: Target<Self>>(self) -> D {
        D::strict_from_source(self)
    }

    #[inline]
    fn checked_to_num_round<N: Numeric>(self, rounding: Rounding) -> Option<N> {
        N::checked_from_num_round(self, rounding)
    }

    #[inline]
    #[track_caller]
    fn overflowing_to_num_round<N: Numeric>(self, rounding: Rounding) -> (N, bool) {
        N::overflowing_from_num_round(self, rounding)
    }

    #[inline]
    #[track_caller]
    fn wrapping_to_num_round<N: Numeric>(self, rounding: Rounding) -> N {
        N::wrapping_from_num_round(self, rounding)
    }

    #[inline]
    #[track_caller]
    fn saturating_to_num_round<N: Numeric>(self, rounding: Rounding) -> N {
        N::saturating_from_num_round(self, rounding)
    }

    #[inline]
    #[track_caller]
    fn to_num_round<N: Numeric>(self, rounding: Rounding) -> N {
        N::from_num_round(self, rounding)
    }

    #[inline]
    #[track_caller]
    fn strict_to_num_round<N: Numeric>(self, rounding: Rounding) -> N {
        N::strict_from_num_round(self, rounding)
    }

    #[inline]
    #[track_caller]
    fn unwrapped_to_num_round<N: Numeric>(self, rounding: Rounding) -> N {
        N::strict_from_num_round(self, rounding)
    }
}
