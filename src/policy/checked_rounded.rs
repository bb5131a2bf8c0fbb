// Made by `make package` of crates/fixed_policy/src/checked_rounded.rt, which is proved: changes go there.

//! The `checked_` calls with a named rounding. `fixed` does not have them.

use crate::kernel::{div_int_round_of, div_round_of, mul_round_of, recip_round_of};
use crate::num::{Fixed, Held, Number, checked_number};
use crate::word::{RawWord, Rounding, Word};

/// The `checked_` calls that round as the caller names. If the exact result does not fit, they return `None`. Results
/// are in units of `2^-F`, and integer operands are whole numbers. Precondition of each call that uses F: F is at
/// most the width.
pub trait CheckedRounded: Number {
    /// Returns the product, rounded as named, or `None` if it does not fit.
    ///
    /// # Examples
    ///
    /// ```
    /// use zugyelmas::prelude::*;
    /// use zugyelmas::word::Rounding;
    /// type Number = FixedI8<4>; // from -8 to 7.9375
    /// let number = Number::from_num::<f64>;
    ///
    /// // 7.5 units
    /// assert_eq!(number(1.5).checked_mul_round(number(0.3125), Rounding::Zero), Some(number(0.4375)));
    /// // a tie, to 8 units
    /// assert_eq!(number(1.5).checked_mul_round(number(0.3125), Rounding::Even), Some(number(0.5)));
    /// // 8 does not fit
    /// assert_eq!(number(4.0).checked_mul_round(number(2.0), Rounding::Even), None);
    /// ```
    ///
    /// # Compile errors
    ///
    /// Compiles only if the fraction F is at most the width.
    ///
    /// # Proved
    ///
    /// ```text
    /// requires { Self.FRACTION ≤ Self.BITS }
    /// ensures { option_map Self.number result ≡ checked Self.SIGNED Self.BITS
    ///     (Some (rounded_mul (Self.number self) (Self.number rhs) Self.FRACTION rounding)) }
    /// ```
    ///
    /// Definitions: [`checked`], [`rounded_mul`].
    ///
    /// [`checked`]: crate::definitions::word_policies
    /// [`rounded_mul`]: crate::definitions::kernel_rounded_rows
    #[must_use]
    fn checked_mul_round(self, rhs: Self, rounding: Rounding) -> Option<Self>;

    /// Returns the quotient, rounded as named, or `None` if the divisor is 0 or the result does not fit.
    ///
    /// # Examples
    ///
    /// ```
    /// use zugyelmas::prelude::*;
    /// use zugyelmas::word::Rounding;
    /// type Number = FixedI8<4>; // from -8 to 7.9375
    /// let number = Number::from_num::<f64>;
    ///
    /// // 1.5 units: a tie, to 2 units
    /// assert_eq!(number(0.1875).checked_div_round(number(2.0), Rounding::Even), Some(number(0.125)));
    /// // -5.33.. units
    /// assert_eq!(number(-1.0).checked_div_round(number(3.0), Rounding::Down), Some(number(-0.375)));
    /// // 8 does not fit
    /// assert_eq!(number(4.0).checked_div_round(number(0.5), Rounding::Even), None);
    /// // the divisor is 0
    /// assert_eq!(number(1.0).checked_div_round(number(0.0), Rounding::Even), None);
    /// ```
    ///
    /// # Compile errors
    ///
    /// Compiles only if the fraction F is at most the width.
    ///
    /// # Proved
    ///
    /// ```text
    /// requires { Self.FRACTION ≤ Self.BITS }
    /// ensures { option_map Self.number result ≡ checked Self.SIGNED Self.BITS
    ///     (by_divisor (Self.number rhs)
    ///     (rounded_div (Self.number self) (Self.number rhs) Self.FRACTION rounding)) }
    /// ```
    ///
    /// Definitions: [`checked`], [`rounded_div`], [`by_divisor`].
    ///
    /// [`checked`]: crate::definitions::word_policies
    /// [`rounded_div`]: crate::definitions::kernel_rounded_rows
    /// [`by_divisor`]: crate::definitions::kernel_rows
    #[must_use]
    fn checked_div_round(self, rhs: Self, rounding: Rounding) -> Option<Self>;

    /// Returns 1 over the number, rounded as named, or `None` if the number is 0 or the result does not fit.
    ///
    /// # Examples
    ///
    /// ```
    /// use zugyelmas::prelude::*;
    /// use zugyelmas::word::Rounding;
    /// type Number = FixedI8<4>; // from -8 to 7.9375
    /// let number = Number::from_num::<f64>;
    ///
    /// // 2.66.. units
    /// assert_eq!(number(6.0).checked_recip_round(Rounding::Even), Some(number(0.1875)));
    /// assert_eq!(number(-6.0).checked_recip_round(Rounding::Zero), Some(number(-0.125)));
    /// // 8 does not fit
    /// assert_eq!(number(0.125).checked_recip_round(Rounding::Even), None);
    /// // the divisor is 0
    /// assert_eq!(number(0.0).checked_recip_round(Rounding::Even), None);
    /// ```
    ///
    /// # Compile errors
    ///
    /// Compiles only if the fraction F is at most the width.
    ///
    /// # Proved
    ///
    /// ```text
    /// requires { Self.FRACTION ≤ Self.BITS }
    /// ensures { option_map Self.number result ≡ checked Self.SIGNED Self.BITS
    ///     (by_divisor (Self.number self) (rounded_recip (Self.number self) Self.FRACTION rounding)) }
    /// ```
    ///
    /// Definitions: [`checked`], [`rounded_recip`], [`by_divisor`].
    ///
    /// [`checked`]: crate::definitions::word_policies
    /// [`rounded_recip`]: crate::definitions::kernel_rounded_rows
    /// [`by_divisor`]: crate::definitions::kernel_rows
    #[must_use]
    fn checked_recip_round(self, rounding: Rounding) -> Option<Self>;

    /// Returns the quotient by an integer, rounded as named, or `None` if the divisor is 0 or the result does not
    /// fit.
    ///
    /// # Examples
    ///
    /// ```
    /// use zugyelmas::prelude::*;
    /// use zugyelmas::word::Rounding;
    /// type Number = FixedI8<4>; // from -8 to 7.9375
    /// let number = Number::from_num::<f64>;
    ///
    /// // 3.5 units: a tie, to 4 units
    /// assert_eq!(number(0.4375).checked_div_int_round(2, Rounding::Even), Some(number(0.25)));
    /// // -2.5 units
    /// assert_eq!(number(-0.3125).checked_div_int_round(2, Rounding::Zero), Some(number(-0.125)));
    /// // 8 does not fit
    /// assert_eq!(Number::MIN.checked_div_int_round(-1, Rounding::Even), None);
    /// // the divisor is 0
    /// assert_eq!(number(1.5).checked_div_int_round(0, Rounding::Even), None);
    /// ```
    ///
    /// # Proved
    ///
    /// ```text
    /// ensures { option_map Self.number result ≡ checked Self.SIGNED Self.BITS
    ///     (by_divisor (Self.Bits.value rhs) (rounded (Self.number self) (Self.Bits.value rhs) rounding)) }
    /// ```
    ///
    /// Definitions: [`checked`], [`rounded`], [`by_divisor`].
    ///
    /// [`checked`]: crate::definitions::word_policies
    /// [`rounded`]: crate::definitions::kernel_rounded
    /// [`by_divisor`]: crate::definitions::kernel_rows
    #[must_use]
    fn checked_div_int_round(self, rhs: Self::Bits, rounding: Rounding) -> Option<Self>;
}

impl<T: Word, const F: u32> CheckedRounded for Fixed<T, F> {
    #[track_caller]
    fn checked_mul_round(self, rhs: Self, rounding: Rounding) -> Option<Self> {
        const {
            assert!(
                F <= T::BITS,
                "precondition: the fraction F is at most the width"
            )
        };
        checked_number(mul_round_of(self.bits, rhs.bits, F, rounding))
    }

    #[track_caller]
    fn checked_div_round(self, rhs: Self, rounding: Rounding) -> Option<Self> {
        const {
            assert!(
                F <= T::BITS,
                "precondition: the fraction F is at most the width"
            )
        };
        if rhs.bits == T::ZERO {
            return None;
        }
        checked_number(div_round_of(self.bits, rhs.bits, F, rounding))
    }

    #[track_caller]
    fn checked_recip_round(self, rounding: Rounding) -> Option<Self> {
        const {
            assert!(
                F <= T::BITS,
                "precondition: the fraction F is at most the width"
            )
        };
        if self.bits == T::ZERO {
            return None;
        }
        checked_number(recip_round_of(self.bits, F, rounding))
    }

    fn checked_div_int_round(self, rhs: Self::Bits, rounding: Rounding) -> Option<Self> {
        if rhs == T::ZERO {
            return None;
        }
        checked_number(div_int_round_of(self.bits, rhs, rounding))
    }
}
