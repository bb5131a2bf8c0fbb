// Made by `make package` of crates/fixed_strict/src/saturating_rounded.rt, which is proved: changes go there.

//! The `saturating_` calls with a named rounding. `fixed` does not have them.

use crate::kernel::{div_int_round_of, div_round_of, mul_round_of, recip_round_of};
use crate::stopping::{Fixed, Held, Number, saturating_number};
use crate::word::{RawWord, Rounding, Word};

/// The `saturating_` calls that round as the caller names. If the exact result does not fit, they return the nearest
/// number that fits. Results are in units of `2^-F`, and integer operands are whole numbers. Precondition of each
/// call that uses F: F is at most the width.
pub trait SaturatingRounded: Number {
    /// Returns the product, rounded as named and saturated.
    ///
    /// # Examples
    ///
    /// ```
    /// use zugyelmas::prelude::*;
    /// use zugyelmas::word::Rounding;
    /// type Number = FixedI8<4>; // from -8 to 7.9375
    /// let number = Number::from_num::<f64>;
    ///
    /// // 7.5 units
    /// assert_eq!(number(1.5).saturating_mul_round(number(0.3125), Rounding::Zero), number(0.4375));
    /// // a tie, to 8 units
    /// assert_eq!(number(1.5).saturating_mul_round(number(0.3125), Rounding::Even), number(0.5));
    /// // 8 does not fit
    /// assert_eq!(number(4.0).saturating_mul_round(number(2.0), Rounding::Even), Number::MAX);
    /// ```
    ///
    /// # Compile errors
    ///
    /// Compiles only if the fraction F is at most the width.
    ///
    /// # Proved
    ///
    /// ```text
    /// requires { Self.FRACTION ≤ Self.BITS }
    /// ensures { Some (Self.number result) ≡ saturating Self.SIGNED Self.BITS
    ///     (Some (rounded_mul (Self.number self) (Self.number rhs) Self.FRACTION rounding)) }
    /// ```
    ///
    /// Definitions: [`saturating`], [`rounded_mul`].
    ///
    /// [`saturating`]: crate::definitions::word_policies
    /// [`rounded_mul`]: crate::definitions::kernel_rounded_rows
    #[must_use]
    fn saturating_mul_round(self, rhs: Self, rounding: Rounding) -> Self;

    /// Returns the quotient, rounded as named and saturated. Precondition: the divisor is not 0.
    ///
    /// # Examples
    ///
    /// ```
    /// use zugyelmas::prelude::*;
    /// use zugyelmas::word::Rounding;
    /// type Number = FixedI8<4>; // from -8 to 7.9375
    /// let number = Number::from_num::<f64>;
    ///
    /// // 1.5 units: a tie, to 2 units
    /// assert_eq!(number(0.1875).saturating_div_round(number(2.0), Rounding::Even), number(0.125));
    /// // -5.33.. units
    /// assert_eq!(number(-1.0).saturating_div_round(number(3.0), Rounding::Down), number(-0.375));
    /// // 8 does not fit
    /// assert_eq!(number(4.0).saturating_div_round(number(0.5), Rounding::Even), Number::MAX);
    /// ```
    ///
    /// ```should_panic
    /// # use zugyelmas::prelude::*;
    /// # use zugyelmas::word::Rounding;
    /// # type Number = FixedI8<4>; // from -8 to 7.9375
    /// # let number = Number::from_num::<f64>;
    /// # std::panic::set_hook(Box::new(|_| {}));
    /// number(1.0).saturating_div_round(number(0.0), Rounding::Even); // the divisor is 0
    /// ```
    ///
    /// # Compile errors
    ///
    /// Compiles only if the fraction F is at most the width.
    ///
    /// # Panics
    ///
    /// Panics unless the divisor is not 0.
    ///
    /// # Proved
    ///
    /// ```text
    /// requires fraction { Self.FRACTION ≤ Self.BITS }
    /// requires divisor { Self.number rhs ≢ pos 0 }
    /// ensures { Some (Self.number result) ≡ saturating Self.SIGNED Self.BITS
    ///     (Some (rounded_div (Self.number self) (Self.number rhs) Self.FRACTION rounding)) }
    /// ```
    ///
    /// Definitions: [`saturating`], [`rounded_div`].
    ///
    /// [`saturating`]: crate::definitions::word_policies
    /// [`rounded_div`]: crate::definitions::kernel_rounded_rows
    #[must_use]
    fn saturating_div_round(self, rhs: Self, rounding: Rounding) -> Self;

    /// Returns 1 over the number, rounded as named and saturated. Precondition: the number is not 0.
    ///
    /// # Examples
    ///
    /// ```
    /// use zugyelmas::prelude::*;
    /// use zugyelmas::word::Rounding;
    /// type Number = FixedI8<4>; // from -8 to 7.9375
    /// let number = Number::from_num::<f64>;
    ///
    /// // 2.66.. units
    /// assert_eq!(number(6.0).saturating_recip_round(Rounding::Even), number(0.1875));
    /// assert_eq!(number(-6.0).saturating_recip_round(Rounding::Zero), number(-0.125));
    /// // 8 does not fit
    /// assert_eq!(number(0.125).saturating_recip_round(Rounding::Even), Number::MAX);
    /// ```
    ///
    /// ```should_panic
    /// # use zugyelmas::prelude::*;
    /// # use zugyelmas::word::Rounding;
    /// # type Number = FixedI8<4>; // from -8 to 7.9375
    /// # let number = Number::from_num::<f64>;
    /// # std::panic::set_hook(Box::new(|_| {}));
    /// number(0.0).saturating_recip_round(Rounding::Even); // the divisor is 0
    /// ```
    ///
    /// # Compile errors
    ///
    /// Compiles only if the fraction F is at most the width.
    ///
    /// # Panics
    ///
    /// Panics unless the divisor is not 0.
    ///
    /// # Proved
    ///
    /// ```text
    /// requires fraction { Self.FRACTION ≤ Self.BITS }
    /// requires divisor { Self.number self ≢ pos 0 }
    /// ensures { Some (Self.number result) ≡ saturating Self.SIGNED Self.BITS
    ///     (Some (rounded_recip (Self.number self) Self.FRACTION rounding)) }
    /// ```
    ///
    /// Definitions: [`saturating`], [`rounded_recip`].
    ///
    /// [`saturating`]: crate::definitions::word_policies
    /// [`rounded_recip`]: crate::definitions::kernel_rounded_rows
    #[must_use]
    fn saturating_recip_round(self, rounding: Rounding) -> Self;

    /// Returns the quotient by an integer, rounded as named and saturated. Precondition: the divisor is not 0.
    ///
    /// # Examples
    ///
    /// ```
    /// use zugyelmas::prelude::*;
    /// use zugyelmas::word::Rounding;
    /// type Number = FixedI8<4>; // from -8 to 7.9375
    /// let number = Number::from_num::<f64>;
    ///
    /// // 3.5 units: a tie, to 4 units
    /// assert_eq!(number(0.4375).saturating_div_int_round(2, Rounding::Even), number(0.25));
    /// // -2.5 units
    /// assert_eq!(number(-0.3125).saturating_div_int_round(2, Rounding::Zero), number(-0.125));
    /// // 8 does not fit
    /// assert_eq!(Number::MIN.saturating_div_int_round(-1, Rounding::Even), Number::MAX);
    /// ```
    ///
    /// ```should_panic
    /// # use zugyelmas::prelude::*;
    /// # use zugyelmas::word::Rounding;
    /// # type Number = FixedI8<4>; // from -8 to 7.9375
    /// # let number = Number::from_num::<f64>;
    /// # std::panic::set_hook(Box::new(|_| {}));
    /// number(1.5).saturating_div_int_round(0, Rounding::Even); // the divisor is 0
    /// ```
    ///
    /// # Panics
    ///
    /// Panics unless the divisor is not 0.
    ///
    /// # Proved
    ///
    /// ```text
    /// requires { Self.Bits.value rhs ≢ pos 0 }
    /// ensures { Some (Self.number result) ≡ saturating Self.SIGNED Self.BITS
    ///     (Some (rounded (Self.number self) (Self.Bits.value rhs) rounding)) }
    /// ```
    ///
    /// Definitions: [`saturating`], [`rounded`].
    ///
    /// [`saturating`]: crate::definitions::word_policies
    /// [`rounded`]: crate::definitions::kernel_rounded
    #[must_use]
    fn saturating_div_int_round(self, rhs: Self::Bits, rounding: Rounding) -> Self;
}

impl<T: Word, const F: u32> SaturatingRounded for Fixed<T, F> {
    #[track_caller]
    fn saturating_mul_round(self, rhs: Self, rounding: Rounding) -> Self {
        const {
            assert!(
                F <= T::BITS,
                "precondition: the fraction F is at most the width"
            )
        };
        saturating_number(mul_round_of(self.bits, rhs.bits, F, rounding))
    }

    #[track_caller]
    fn saturating_div_round(self, rhs: Self, rounding: Rounding) -> Self {
        const {
            assert!(
                F <= T::BITS,
                "precondition: the fraction F is at most the width"
            )
        };
        assert!(rhs.bits != T::ZERO, "precondition: the divisor is not 0");
        saturating_number(div_round_of(self.bits, rhs.bits, F, rounding))
    }

    #[track_caller]
    fn saturating_recip_round(self, rounding: Rounding) -> Self {
        const {
            assert!(
                F <= T::BITS,
                "precondition: the fraction F is at most the width"
            )
        };
        assert!(self.bits != T::ZERO, "precondition: the divisor is not 0");
        saturating_number(recip_round_of(self.bits, F, rounding))
    }

    #[track_caller]
    fn saturating_div_int_round(self, rhs: Self::Bits, rounding: Rounding) -> Self {
        assert!(rhs != T::ZERO, "precondition: the divisor is not 0");
        saturating_number(div_int_round_of(self.bits, rhs, rounding))
    }
}
