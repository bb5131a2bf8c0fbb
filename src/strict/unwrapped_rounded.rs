// Made by `make package` of crates/fixed_strict/src/unwrapped_rounded.rt, which is proved: changes go there.

//! The `unwrapped_` calls with a named rounding. `fixed` does not have them.

use crate::stopping::{Fixed, Held, Number};
use crate::strict::strict_rounded::StrictRounded;
use crate::word::{RawWord, Rounding, Word};

/// The `unwrapped_` calls that round as the caller names. Precondition of each call: the exact result fits. Results
/// are in units of `2^-F`, and integer operands are whole numbers. Precondition of each call that uses F: F is at
/// most the width.
pub trait UnwrappedRounded: Number {
    /// Returns the product, rounded as named. Precondition: it fits.
    ///
    /// # Examples
    ///
    /// ```
    /// use zugyelmas::prelude::*;
    /// use zugyelmas::word::Rounding;
    /// type Number = FixedI8<4>; // from -8 to 7.9375
    /// let number = Number::from_num::<f64>;
    ///
    /// // 7.5 units
    /// assert_eq!(number(1.5).unwrapped_mul_round(number(0.3125), Rounding::Zero), number(0.4375));
    /// // a tie, to 8 units
    /// assert_eq!(number(1.5).unwrapped_mul_round(number(0.3125), Rounding::Even), number(0.5));
    /// ```
    ///
    /// ```should_panic
    /// # use zugyelmas::prelude::*;
    /// # use zugyelmas::word::Rounding;
    /// # type Number = FixedI8<4>; // from -8 to 7.9375
    /// # let number = Number::from_num::<f64>;
    /// # std::panic::set_hook(Box::new(|_| {}));
    /// number(4.0).unwrapped_mul_round(number(2.0), Rounding::Even); // 8 does not fit
    /// ```
    ///
    /// # Compile errors
    ///
    /// Compiles only if the fraction F is at most the width.
    ///
    /// # Panics
    ///
    /// Panics unless the number fits.
    ///
    /// # Proved
    ///
    /// ```text
    /// requires fraction { Self.FRACTION ≤ Self.BITS }
    /// requires fits { InRange Self.SIGNED Self.BITS
    ///     (rounded_mul (Self.number self) (Self.number rhs) Self.FRACTION rounding) }
    /// ensures { Self.number result
    ///     ≡ rounded_mul (Self.number self) (Self.number rhs) Self.FRACTION rounding }
    /// ```
    ///
    /// Definitions: [`InRange`], [`rounded_mul`].
    ///
    /// [`InRange`]: crate::definitions::word_format
    /// [`rounded_mul`]: crate::definitions::kernel_rounded_rows
    #[must_use]
    fn unwrapped_mul_round(self, rhs: Self, rounding: Rounding) -> Self;

    /// Returns the quotient, rounded as named. Preconditions: the divisor is not 0, and the result fits.
    ///
    /// # Examples
    ///
    /// ```
    /// use zugyelmas::prelude::*;
    /// use zugyelmas::word::Rounding;
    /// type Number = FixedI8<4>; // from -8 to 7.9375
    /// let number = Number::from_num::<f64>;
    ///
    /// // 1.5 units: a tie, to 2 units
    /// assert_eq!(number(0.1875).unwrapped_div_round(number(2.0), Rounding::Even), number(0.125));
    /// // -5.33.. units
    /// assert_eq!(number(-1.0).unwrapped_div_round(number(3.0), Rounding::Down), number(-0.375));
    /// ```
    ///
    /// ```should_panic
    /// # use zugyelmas::prelude::*;
    /// # use zugyelmas::word::Rounding;
    /// # type Number = FixedI8<4>; // from -8 to 7.9375
    /// # let number = Number::from_num::<f64>;
    /// # std::panic::set_hook(Box::new(|_| {}));
    /// number(4.0).unwrapped_div_round(number(0.5), Rounding::Even); // 8 does not fit
    /// ```
    ///
    /// ```should_panic
    /// # use zugyelmas::prelude::*;
    /// # use zugyelmas::word::Rounding;
    /// # type Number = FixedI8<4>; // from -8 to 7.9375
    /// # let number = Number::from_num::<f64>;
    /// # std::panic::set_hook(Box::new(|_| {}));
    /// number(1.0).unwrapped_div_round(number(0.0), Rounding::Even); // the divisor is 0
    /// ```
    ///
    /// # Compile errors
    ///
    /// Compiles only if the fraction F is at most the width.
    ///
    /// # Panics
    ///
    /// Panics unless the divisor is not 0, and the number fits.
    ///
    /// # Proved
    ///
    /// ```text
    /// requires fraction { Self.FRACTION ≤ Self.BITS }
    /// requires divisor { Self.number rhs ≢ pos 0 }
    /// requires fits { InRange Self.SIGNED Self.BITS
    ///     (rounded_div (Self.number self) (Self.number rhs) Self.FRACTION rounding) }
    /// ensures { Self.number result
    ///     ≡ rounded_div (Self.number self) (Self.number rhs) Self.FRACTION rounding }
    /// ```
    ///
    /// Definitions: [`InRange`], [`rounded_div`].
    ///
    /// [`InRange`]: crate::definitions::word_format
    /// [`rounded_div`]: crate::definitions::kernel_rounded_rows
    #[must_use]
    fn unwrapped_div_round(self, rhs: Self, rounding: Rounding) -> Self;

    /// Returns 1 over the number, rounded as named. Preconditions: the number is not 0, and the result fits.
    ///
    /// # Examples
    ///
    /// ```
    /// use zugyelmas::prelude::*;
    /// use zugyelmas::word::Rounding;
    /// type Number = FixedI8<4>; // from -8 to 7.9375
    /// let number = Number::from_num::<f64>;
    ///
    /// // 2.66.. units
    /// assert_eq!(number(6.0).unwrapped_recip_round(Rounding::Even), number(0.1875));
    /// assert_eq!(number(-6.0).unwrapped_recip_round(Rounding::Zero), number(-0.125));
    /// ```
    ///
    /// ```should_panic
    /// # use zugyelmas::prelude::*;
    /// # use zugyelmas::word::Rounding;
    /// # type Number = FixedI8<4>; // from -8 to 7.9375
    /// # let number = Number::from_num::<f64>;
    /// # std::panic::set_hook(Box::new(|_| {}));
    /// number(0.125).unwrapped_recip_round(Rounding::Even); // 8 does not fit
    /// ```
    ///
    /// ```should_panic
    /// # use zugyelmas::prelude::*;
    /// # use zugyelmas::word::Rounding;
    /// # type Number = FixedI8<4>; // from -8 to 7.9375
    /// # let number = Number::from_num::<f64>;
    /// # std::panic::set_hook(Box::new(|_| {}));
    /// number(0.0).unwrapped_recip_round(Rounding::Even); // the divisor is 0
    /// ```
    ///
    /// # Compile errors
    ///
    /// Compiles only if the fraction F is at most the width.
    ///
    /// # Panics
    ///
    /// Panics unless the divisor is not 0, and the number fits.
    ///
    /// # Proved
    ///
    /// ```text
    /// requires fraction { Self.FRACTION ≤ Self.BITS }
    /// requires divisor { Self.number self ≢ pos 0 }
    /// requires fits { InRange Self.SIGNED Self.BITS
    ///     (rounded_recip (Self.number self) Self.FRACTION rounding) }
    /// ensures { Self.number result
    ///     ≡ rounded_recip (Self.number self) Self.FRACTION rounding }
    /// ```
    ///
    /// Definitions: [`InRange`], [`rounded_recip`].
    ///
    /// [`InRange`]: crate::definitions::word_format
    /// [`rounded_recip`]: crate::definitions::kernel_rounded_rows
    #[must_use]
    fn unwrapped_recip_round(self, rounding: Rounding) -> Self;

    /// Returns the quotient by an integer, rounded as named. Preconditions: the divisor is not 0, and the result
    /// fits.
    ///
    /// # Examples
    ///
    /// ```
    /// use zugyelmas::prelude::*;
    /// use zugyelmas::word::Rounding;
    /// type Number = FixedI8<4>; // from -8 to 7.9375
    /// let number = Number::from_num::<f64>;
    ///
    /// // 3.5 units: a tie, to 4 units
    /// assert_eq!(number(0.4375).unwrapped_div_int_round(2, Rounding::Even), number(0.25));
    /// // -2.5 units
    /// assert_eq!(number(-0.3125).unwrapped_div_int_round(2, Rounding::Zero), number(-0.125));
    /// ```
    ///
    /// ```should_panic
    /// # use zugyelmas::prelude::*;
    /// # use zugyelmas::word::Rounding;
    /// # type Number = FixedI8<4>; // from -8 to 7.9375
    /// # let number = Number::from_num::<f64>;
    /// # std::panic::set_hook(Box::new(|_| {}));
    /// Number::MIN.unwrapped_div_int_round(-1, Rounding::Even); // 8 does not fit
    /// ```
    ///
    /// ```should_panic
    /// # use zugyelmas::prelude::*;
    /// # use zugyelmas::word::Rounding;
    /// # type Number = FixedI8<4>; // from -8 to 7.9375
    /// # let number = Number::from_num::<f64>;
    /// # std::panic::set_hook(Box::new(|_| {}));
    /// number(1.5).unwrapped_div_int_round(0, Rounding::Even); // the divisor is 0
    /// ```
    ///
    /// # Panics
    ///
    /// Panics unless the divisor is not 0, and the number fits.
    ///
    /// # Proved
    ///
    /// ```text
    /// requires divisor { Self.Bits.value rhs ≢ pos 0 }
    /// requires fits { InRange Self.SIGNED Self.BITS
    ///     (rounded (Self.number self) (Self.Bits.value rhs) rounding) }
    /// ensures { Self.number result
    ///     ≡ rounded (Self.number self) (Self.Bits.value rhs) rounding }
    /// ```
    ///
    /// Definitions: [`InRange`], [`rounded`].
    ///
    /// [`InRange`]: crate::definitions::word_format
    /// [`rounded`]: crate::definitions::kernel_rounded
    #[must_use]
    fn unwrapped_div_int_round(self, rhs: Self::Bits, rounding: Rounding) -> Self;
}

impl<T: Word, const F: u32> UnwrappedRounded for Fixed<T, F> {
    #[track_caller]
    fn unwrapped_mul_round(self, rhs: Self, rounding: Rounding) -> Self {
        const {
            assert!(
                F <= T::BITS,
                "precondition: the fraction F is at most the width"
            )
        };
        self.strict_mul_round(rhs, rounding)
    }

    #[track_caller]
    fn unwrapped_div_round(self, rhs: Self, rounding: Rounding) -> Self {
        const {
            assert!(
                F <= T::BITS,
                "precondition: the fraction F is at most the width"
            )
        };
        assert!(rhs.bits != T::ZERO, "precondition: the divisor is not 0");
        self.strict_div_round(rhs, rounding)
    }

    #[track_caller]
    fn unwrapped_recip_round(self, rounding: Rounding) -> Self {
        const {
            assert!(
                F <= T::BITS,
                "precondition: the fraction F is at most the width"
            )
        };
        assert!(self.bits != T::ZERO, "precondition: the divisor is not 0");
        self.strict_recip_round(rounding)
    }

    #[track_caller]
    fn unwrapped_div_int_round(self, rhs: Self::Bits, rounding: Rounding) -> Self {
        assert!(rhs != T::ZERO, "precondition: the divisor is not 0");
        self.strict_div_int_round(rhs, rounding)
    }
}
