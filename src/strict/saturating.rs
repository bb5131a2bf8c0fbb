// Made by `make package` of crates/fixed_strict/src/saturating.rt, which is proved: changes go there.

//! Operations that return the nearest number that fits.

use crate::kernel::{
    abs_of, add_of, dist_of, div_euclid_int_of, div_euclid_of, div_int_of, div_nearest_of,
    mixed_add_of, mixed_sub_of, mul_int_of, mul_nearest_of, mul_of, neg_of, next_multiple_of_of,
    recip_of, rem_euclid_int_of, signum_of, sqrt_of, sub_of,
};
use crate::stopping::{Fixed, Held, Number, saturating_number};
use crate::strict::numbers::{capped_number, clamped_number, held_number};
use crate::word::{RawWord, SignedWord, UnsignedWord, Word};

/// The `saturating_` forms of all numbers. If the exact result does not fit, they return the nearest number that
/// fits. Results are in units of `2^-F`, and integer operands are whole numbers. Precondition of each call that uses
/// F: F is at most the width.
pub trait Saturating: Number {
    /// Returns the negated number, saturated.
    ///
    /// # Examples
    ///
    /// ```
    /// use zugyelmas::prelude::*;
    /// type Number = FixedI8<4>; // from -8 to 7.9375
    /// let number = Number::from_num::<f64>;
    ///
    /// assert_eq!(number(1.5).saturating_neg(), number(-1.5));
    /// assert_eq!(Number::MIN.saturating_neg(), Number::MAX); // 8 does not fit
    /// ```
    ///
    /// # Proved
    ///
    /// ```text
    /// ensures { Some (Self.number result)
    ///     ≡ saturating Self.SIGNED Self.BITS (Some (neg_ℤ (Self.number self))) }
    /// ```
    ///
    /// Definitions: [`saturating`].
    ///
    /// [`saturating`]: crate::definitions::word_policies
    #[must_use]
    fn saturating_neg(self) -> Self;

    /// Returns the sum, saturated.
    ///
    /// # Examples
    ///
    /// ```
    /// use zugyelmas::prelude::*;
    /// type Number = FixedI8<4>; // from -8 to 7.9375
    /// let number = Number::from_num::<f64>;
    ///
    /// assert_eq!(number(1.5).saturating_add(number(2.25)), number(3.75));
    /// assert_eq!(Number::MAX.saturating_add(Number::DELTA), Number::MAX); // 8 does not fit
    /// ```
    ///
    /// # Proved
    ///
    /// ```text
    /// ensures { Some (Self.number result) ≡ saturating Self.SIGNED Self.BITS
    ///     (Some (Self.number self +ℤ Self.number rhs)) }
    /// ```
    ///
    /// Definitions: [`saturating`].
    ///
    /// [`saturating`]: crate::definitions::word_policies
    #[must_use]
    fn saturating_add(self, rhs: Self) -> Self;

    /// Returns the difference, saturated.
    ///
    /// # Examples
    ///
    /// ```
    /// use zugyelmas::prelude::*;
    /// type Number = FixedI8<4>; // from -8 to 7.9375
    /// let number = Number::from_num::<f64>;
    ///
    /// assert_eq!(number(1.5).saturating_sub(number(2.25)), number(-0.75));
    /// // -8.0625 does not fit
    /// assert_eq!(Number::MIN.saturating_sub(Number::DELTA), Number::MIN);
    /// ```
    ///
    /// # Proved
    ///
    /// ```text
    /// ensures { Some (Self.number result) ≡ saturating Self.SIGNED Self.BITS
    ///     (Some (Self.number self -ℤ Self.number rhs)) }
    /// ```
    ///
    /// Definitions: [`saturating`].
    ///
    /// [`saturating`]: crate::definitions::word_policies
    #[must_use]
    fn saturating_sub(self, rhs: Self) -> Self;

    /// Returns the product, rounded down and saturated.
    ///
    /// # Examples
    ///
    /// ```
    /// use zugyelmas::prelude::*;
    /// type Number = FixedI8<4>; // from -8 to 7.9375
    /// let number = Number::from_num::<f64>;
    ///
    /// assert_eq!(number(1.5).saturating_mul(number(2.25)), number(3.375));
    /// // -0.03125, rounded down
    /// assert_eq!(number(0.5).saturating_mul(number(-0.0625)), number(-0.0625));
    /// assert_eq!(number(4.0).saturating_mul(number(2.0)), Number::MAX); // 8 does not fit
    /// ```
    ///
    /// # Compile errors
    ///
    /// Compiles only if the fraction F is at most the width.
    ///
    /// # Proved
    ///
    /// ```text
    /// requires { Self.FRACTION ≤ Self.BITS }
    /// ensures { Some (Self.number result) ≡ saturating Self.SIGNED Self.BITS
    ///     (Some (exact_mul (Self.number self) (Self.number rhs) Self.FRACTION)) }
    /// ```
    ///
    /// Definitions: [`saturating`], [`exact_mul`].
    ///
    /// [`saturating`]: crate::definitions::word_policies
    /// [`exact_mul`]: crate::definitions::kernel_rows
    #[must_use]
    fn saturating_mul(self, rhs: Self) -> Self;

    /// Returns the quotient, rounded toward zero and saturated. Precondition: the divisor is not 0.
    ///
    /// # Examples
    ///
    /// ```
    /// use zugyelmas::prelude::*;
    /// type Number = FixedI8<4>; // from -8 to 7.9375
    /// let number = Number::from_num::<f64>;
    ///
    /// assert_eq!(number(3.0).saturating_div(number(2.0)), number(1.5));
    /// // -1/3, rounded toward zero
    /// assert_eq!(number(-1.0).saturating_div(number(3.0)), number(-0.3125));
    /// assert_eq!(number(4.0).saturating_div(number(0.5)), Number::MAX); // 8 does not fit
    /// ```
    ///
    /// ```should_panic
    /// # use zugyelmas::prelude::*;
    /// # type Number = FixedI8<4>; // from -8 to 7.9375
    /// # let number = Number::from_num::<f64>;
    /// # std::panic::set_hook(Box::new(|_| {}));
    /// number(1.0).saturating_div(number(0.0)); // the divisor is 0
    /// ```
    ///
    /// # Compile errors
    ///
    /// Compiles only if the fraction F is at most the width.
    ///
    /// # Panics
    ///
    /// Panics unless the divisor is not 0.
    ///
    /// # Proved
    ///
    /// ```text
    /// requires fraction { Self.FRACTION ≤ Self.BITS }
    /// requires divisor { Self.number rhs ≢ pos 0 }
    /// ensures { Some (Self.number result) ≡ saturating Self.SIGNED Self.BITS
    ///     (Some (exact_div (Self.number self) (Self.number rhs) Self.FRACTION)) }
    /// ```
    ///
    /// Definitions: [`saturating`], [`exact_div`].
    ///
    /// [`saturating`]: crate::definitions::word_policies
    /// [`exact_div`]: crate::definitions::kernel_rows
    #[must_use]
    fn saturating_div(self, rhs: Self) -> Self;

    /// Returns 1 over the number, rounded toward zero and saturated. Precondition: the number is not 0.
    ///
    /// # Examples
    ///
    /// ```
    /// use zugyelmas::prelude::*;
    /// type Number = FixedI8<4>; // from -8 to 7.9375
    /// let number = Number::from_num::<f64>;
    ///
    /// assert_eq!(number(2.0).saturating_recip(), number(0.5));
    /// // -1/3, rounded toward zero
    /// assert_eq!(number(-3.0).saturating_recip(), number(-0.3125));
    /// assert_eq!(number(0.125).saturating_recip(), Number::MAX); // 8 does not fit
    /// ```
    ///
    /// ```should_panic
    /// # use zugyelmas::prelude::*;
    /// # type Number = FixedI8<4>; // from -8 to 7.9375
    /// # let number = Number::from_num::<f64>;
    /// # std::panic::set_hook(Box::new(|_| {}));
    /// number(0.0).saturating_recip(); // the divisor is 0
    /// ```
    ///
    /// # Compile errors
    ///
    /// Compiles only if the fraction F is at most the width.
    ///
    /// # Panics
    ///
    /// Panics unless the divisor is not 0.
    ///
    /// # Proved
    ///
    /// ```text
    /// requires fraction { Self.FRACTION ≤ Self.BITS }
    /// requires divisor { Self.number self ≢ pos 0 }
    /// ensures { Some (Self.number result) ≡ saturating Self.SIGNED Self.BITS
    ///     (Some (exact_recip (Self.number self) Self.FRACTION)) }
    /// ```
    ///
    /// Definitions: [`saturating`], [`exact_recip`].
    ///
    /// [`saturating`]: crate::definitions::word_policies
    /// [`exact_recip`]: crate::definitions::kernel_rows
    #[must_use]
    fn saturating_recip(self) -> Self;

    /// Returns the Euclidean quotient, which is a whole number, saturated. Precondition: the divisor is not 0.
    ///
    /// # Examples
    ///
    /// ```
    /// use zugyelmas::prelude::*;
    /// type Number = FixedI8<4>; // from -8 to 7.9375
    /// let number = Number::from_num::<f64>;
    ///
    /// assert_eq!(number(5.5).saturating_div_euclid(number(2.0)), number(2.0));
    /// // the remainder is 0.5
    /// assert_eq!(number(-5.5).saturating_div_euclid(number(2.0)), number(-3.0));
    /// // 15 does not fit
    /// assert_eq!(number(7.5).saturating_div_euclid(number(0.5)), Number::MAX);
    /// ```
    ///
    /// ```should_panic
    /// # use zugyelmas::prelude::*;
    /// # type Number = FixedI8<4>; // from -8 to 7.9375
    /// # let number = Number::from_num::<f64>;
    /// # std::panic::set_hook(Box::new(|_| {}));
    /// number(5.5).saturating_div_euclid(number(0.0)); // the divisor is 0
    /// ```
    ///
    /// # Compile errors
    ///
    /// Compiles only if the fraction F is at most the width.
    ///
    /// # Panics
    ///
    /// Panics unless the divisor is not 0.
    ///
    /// # Proved
    ///
    /// ```text
    /// requires fraction { Self.FRACTION ≤ Self.BITS }
    /// requires divisor { Self.number rhs ≢ pos 0 }
    /// ensures { Some (Self.number result) ≡ saturating Self.SIGNED Self.BITS
    ///     (Some (exact_div_euclid (Self.number self) (Self.number rhs) Self.FRACTION)) }
    /// ```
    ///
    /// Definitions: [`saturating`], [`exact_div_euclid`].
    ///
    /// [`saturating`]: crate::definitions::word_policies
    /// [`exact_div_euclid`]: crate::definitions::kernel_rows
    #[must_use]
    fn saturating_div_euclid(self, rhs: Self) -> Self;

    /// Returns the distance between the numbers, saturated.
    ///
    /// # Examples
    ///
    /// ```
    /// use zugyelmas::prelude::*;
    /// type Number = FixedI8<4>; // from -8 to 7.9375
    /// let number = Number::from_num::<f64>;
    ///
    /// assert_eq!(number(1.5).saturating_dist(number(-2.0)), number(3.5));
    /// // 15.9375 does not fit
    /// assert_eq!(Number::MAX.saturating_dist(Number::MIN), Number::MAX);
    /// ```
    ///
    /// # Proved
    ///
    /// ```text
    /// ensures { Some (Self.number result) ≡ saturating Self.SIGNED Self.BITS
    ///     (Some (exact_abs (Self.number self -ℤ Self.number other))) }
    /// ```
    ///
    /// Definitions: [`saturating`], [`exact_abs`].
    ///
    /// [`saturating`]: crate::definitions::word_policies
    /// [`exact_abs`]: crate::definitions::kernel_rows
    #[must_use]
    fn saturating_dist(self, other: Self) -> Self;

    /// Returns the next multiple of `other`, upward if `other` is positive and downward if it is negative, saturated.
    /// Precondition: `other` is not 0.
    ///
    /// # Examples
    ///
    /// ```
    /// use zugyelmas::prelude::*;
    /// type Number = FixedI8<4>; // from -8 to 7.9375
    /// let number = Number::from_num::<f64>;
    ///
    /// assert_eq!(number(2.5).saturating_next_multiple_of(number(1.0)), number(3.0));
    /// // downward, by the sign of the divisor
    /// assert_eq!(number(2.5).saturating_next_multiple_of(number(-1.0)), number(2.0));
    /// // 8 does not fit
    /// assert_eq!(number(7.5).saturating_next_multiple_of(number(1.0)), Number::MAX);
    /// ```
    ///
    /// ```should_panic
    /// # use zugyelmas::prelude::*;
    /// # type Number = FixedI8<4>; // from -8 to 7.9375
    /// # let number = Number::from_num::<f64>;
    /// # std::panic::set_hook(Box::new(|_| {}));
    /// number(2.5).saturating_next_multiple_of(number(0.0)); // the divisor is 0
    /// ```
    ///
    /// # Panics
    ///
    /// Panics unless the divisor is not 0.
    ///
    /// # Proved
    ///
    /// ```text
    /// requires { Self.number other ≢ pos 0 }
    /// ensures { Some (Self.number result) ≡ saturating Self.SIGNED Self.BITS
    ///     (Some (exact_next_multiple_of (Self.number self) (Self.number other))) }
    /// ```
    ///
    /// Definitions: [`saturating`], [`exact_next_multiple_of`].
    ///
    /// [`saturating`]: crate::definitions::word_policies
    /// [`exact_next_multiple_of`]: crate::definitions::kernel_rows
    #[must_use]
    fn saturating_next_multiple_of(self, other: Self) -> Self;

    /// Returns the product by an integer, saturated.
    ///
    /// # Examples
    ///
    /// ```
    /// use zugyelmas::prelude::*;
    /// type Number = FixedI8<4>; // from -8 to 7.9375
    /// let number = Number::from_num::<f64>;
    ///
    /// assert_eq!(number(1.5).saturating_mul_int(3), number(4.5));
    /// assert_eq!(number(1.5).saturating_mul_int(6), Number::MAX); // 9 does not fit
    /// ```
    ///
    /// # Proved
    ///
    /// ```text
    /// ensures { Some (Self.number result) ≡ saturating Self.SIGNED Self.BITS
    ///     (Some (Self.number self *ℤ Self.Bits.value rhs)) }
    /// ```
    ///
    /// Definitions: [`saturating`].
    ///
    /// [`saturating`]: crate::definitions::word_policies
    #[must_use]
    fn saturating_mul_int(self, rhs: Self::Bits) -> Self;

    /// Returns the quotient by an integer, rounded toward zero and saturated. Precondition: the divisor is not 0.
    ///
    /// # Examples
    ///
    /// ```
    /// use zugyelmas::prelude::*;
    /// type Number = FixedI8<4>; // from -8 to 7.9375
    /// let number = Number::from_num::<f64>;
    ///
    /// assert_eq!(number(4.5).saturating_div_int(3), number(1.5));
    /// // -0.03125, rounded toward zero
    /// assert_eq!(number(-0.0625).saturating_div_int(2), number(0.0));
    /// assert_eq!(Number::MIN.saturating_div_int(-1), Number::MAX); // 8 does not fit
    /// ```
    ///
    /// ```should_panic
    /// # use zugyelmas::prelude::*;
    /// # type Number = FixedI8<4>; // from -8 to 7.9375
    /// # let number = Number::from_num::<f64>;
    /// # std::panic::set_hook(Box::new(|_| {}));
    /// number(4.5).saturating_div_int(0); // the divisor is 0
    /// ```
    ///
    /// # Panics
    ///
    /// Panics unless the divisor is not 0.
    ///
    /// # Proved
    ///
    /// ```text
    /// requires { Self.Bits.value rhs ≢ pos 0 }
    /// ensures { Some (Self.number result) ≡ saturating Self.SIGNED Self.BITS
    ///     (Some (truncated_quotient (Self.number self) (Self.Bits.value rhs))) }
    /// ```
    ///
    /// Definitions: [`saturating`], [`truncated_quotient`].
    ///
    /// [`saturating`]: crate::definitions::word_policies
    /// [`truncated_quotient`]: crate::definitions::word_quotient
    #[must_use]
    fn saturating_div_int(self, rhs: Self::Bits) -> Self;

    /// Returns the Euclidean remainder by an integer, saturated. Precondition: the divisor is not 0.
    ///
    /// # Examples
    ///
    /// ```
    /// use zugyelmas::prelude::*;
    /// type Number = FixedI8<4>; // from -8 to 7.9375
    /// let number = Number::from_num::<f64>;
    ///
    /// assert_eq!(number(5.5).saturating_rem_euclid_int(2), number(1.5));
    /// assert_eq!(number(-5.5).saturating_rem_euclid_int(2), number(0.5)); // never below 0
    /// // 8.9375 does not fit
    /// assert_eq!(number(-0.0625).saturating_rem_euclid_int(9), Number::MAX);
    /// ```
    ///
    /// ```should_panic
    /// # use zugyelmas::prelude::*;
    /// # type Number = FixedI8<4>; // from -8 to 7.9375
    /// # let number = Number::from_num::<f64>;
    /// # std::panic::set_hook(Box::new(|_| {}));
    /// number(5.5).saturating_rem_euclid_int(0); // the divisor is 0
    /// ```
    ///
    /// # Compile errors
    ///
    /// Compiles only if the fraction F is at most the width.
    ///
    /// # Panics
    ///
    /// Panics unless the divisor is not 0.
    ///
    /// # Proved
    ///
    /// ```text
    /// requires fraction { Self.FRACTION ≤ Self.BITS }
    /// requires divisor { Self.Bits.value rhs ≢ pos 0 }
    /// ensures { Some (Self.number result) ≡ saturating Self.SIGNED Self.BITS
    ///     (Some (euclidean_remainder (Self.number self) (units (Self.Bits.value rhs) Self.FRACTION))) }
    /// ```
    ///
    /// Definitions: [`saturating`], [`euclidean_remainder`], [`units`].
    ///
    /// [`saturating`]: crate::definitions::word_policies
    /// [`euclidean_remainder`]: crate::definitions::word_quotient
    /// [`units`]: crate::definitions::kernel_rows
    #[must_use]
    fn saturating_rem_euclid_int(self, rhs: Self::Bits) -> Self;

    /// Returns the Euclidean quotient by an integer, which is a whole number, saturated. Precondition: the divisor is
    /// not 0.
    ///
    /// # Examples
    ///
    /// ```
    /// use zugyelmas::prelude::*;
    /// type Number = FixedI8<4>; // from -8 to 7.9375
    /// let number = Number::from_num::<f64>;
    ///
    /// assert_eq!(number(5.5).saturating_div_euclid_int(2), number(2.0));
    /// // the remainder is 0.5
    /// assert_eq!(number(-5.5).saturating_div_euclid_int(2), number(-3.0));
    /// assert_eq!(Number::MIN.saturating_div_euclid_int(-1), Number::MAX); // 8 does not fit
    /// ```
    ///
    /// ```should_panic
    /// # use zugyelmas::prelude::*;
    /// # type Number = FixedI8<4>; // from -8 to 7.9375
    /// # let number = Number::from_num::<f64>;
    /// # std::panic::set_hook(Box::new(|_| {}));
    /// number(5.5).saturating_div_euclid_int(0); // the divisor is 0
    /// ```
    ///
    /// # Compile errors
    ///
    /// Compiles only if the fraction F is at most the width.
    ///
    /// # Panics
    ///
    /// Panics unless the divisor is not 0.
    ///
    /// # Proved
    ///
    /// ```text
    /// requires fraction { Self.FRACTION ≤ Self.BITS }
    /// requires divisor { Self.Bits.value rhs ≢ pos 0 }
    /// ensures { Some (Self.number result) ≡ saturating Self.SIGNED Self.BITS
    ///     (Some (exact_div_euclid (Self.number self) (units (Self.Bits.value rhs) Self.FRACTION) Self.FRACTION)) }
    /// ```
    ///
    /// Definitions: [`saturating`], [`exact_div_euclid`], [`units`].
    ///
    /// [`saturating`]: crate::definitions::word_policies
    /// [`exact_div_euclid`]: crate::definitions::kernel_rows
    /// [`units`]: crate::definitions::kernel_rows
    #[must_use]
    fn saturating_div_euclid_int(self, rhs: Self::Bits) -> Self;

    /// Returns the square root, rounded down and saturated. Precondition: the number is not negative.
    ///
    /// # Examples
    ///
    /// ```
    /// use zugyelmas::prelude::*;
    /// type Number = FixedI8<4>; // from -8 to 7.9375
    /// let number = Number::from_num::<f64>;
    ///
    /// assert_eq!(number(2.25).saturating_sqrt(), number(1.5));
    /// assert_eq!(number(2.0).saturating_sqrt(), number(1.375)); // 1.414.., rounded down
    /// // the root of 0.25 does not fit
    /// assert_eq!(FixedI8::<8>::from_bits(64).saturating_sqrt(), FixedI8::MAX);
    /// ```
    ///
    /// ```should_panic
    /// # use zugyelmas::prelude::*;
    /// # type Number = FixedI8<4>; // from -8 to 7.9375
    /// # let number = Number::from_num::<f64>;
    /// # std::panic::set_hook(Box::new(|_| {}));
    /// number(-1.0).saturating_sqrt(); // no root
    /// ```
    ///
    /// # Compile errors
    ///
    /// Compiles only if the fraction F is at most the width.
    ///
    /// # Panics
    ///
    /// Panics unless the number is not below 0.
    ///
    /// # Proved
    ///
    /// ```text
    /// requires fraction { Self.FRACTION ≤ Self.BITS }
    /// requires sign { pos 0 ≤ℤ Self.number self }
    /// ensures { Some (Self.number result) ≡ saturating Self.SIGNED Self.BITS
    ///     (Some (root_of (Self.number self) Self.FRACTION)) }
    /// ```
    ///
    /// Definitions: [`saturating`], [`root_of`].
    ///
    /// [`saturating`]: crate::definitions::word_policies
    /// [`root_of`]: crate::definitions::root_root
    #[must_use]
    fn saturating_sqrt(self) -> Self;
}

impl<T: Word, const F: u32> Saturating for Fixed<T, F> {
    fn saturating_neg(self) -> Self {
        saturating_number(neg_of(self.bits))
    }

    fn saturating_add(self, rhs: Self) -> Self {
        saturating_number(add_of(self.bits, rhs.bits))
    }

    fn saturating_sub(self, rhs: Self) -> Self {
        saturating_number(sub_of(self.bits, rhs.bits))
    }

    #[track_caller]
    fn saturating_mul(self, rhs: Self) -> Self {
        const {
            assert!(
                F <= T::BITS,
                "precondition: the fraction F is at most the width"
            )
        };
        if T::BITS == 8 {
            return Fixed {
                bits: mul_nearest_of(self.bits, rhs.bits, F),
            };
        }
        held_number(mul_of(self.bits, rhs.bits, F))
    }

    #[track_caller]
    fn saturating_div(self, rhs: Self) -> Self {
        const {
            assert!(
                F <= T::BITS,
                "precondition: the fraction F is at most the width"
            )
        };
        assert!(rhs.bits != T::ZERO, "precondition: the divisor is not 0");
        Fixed {
            bits: div_nearest_of(self.bits, rhs.bits, F),
        }
    }

    #[track_caller]
    fn saturating_recip(self) -> Self {
        const {
            assert!(
                F <= T::BITS,
                "precondition: the fraction F is at most the width"
            )
        };
        assert!(self.bits != T::ZERO, "precondition: the divisor is not 0");
        saturating_number(recip_of(self.bits, F))
    }

    #[track_caller]
    fn saturating_div_euclid(self, rhs: Self) -> Self {
        const {
            assert!(
                F <= T::BITS,
                "precondition: the fraction F is at most the width"
            )
        };
        assert!(rhs.bits != T::ZERO, "precondition: the divisor is not 0");
        saturating_number(div_euclid_of(self.bits, rhs.bits, F))
    }

    fn saturating_dist(self, other: Self) -> Self {
        // That both are in range bounds their distance.
        let _signs = (self.bits.is_below_zero(), other.bits.is_below_zero());
        capped_number(dist_of(self.bits, other.bits))
    }

    #[track_caller]
    fn saturating_next_multiple_of(self, other: Self) -> Self {
        assert!(other.bits != T::ZERO, "precondition: the divisor is not 0");
        saturating_number(next_multiple_of_of(self.bits, other.bits))
    }

    fn saturating_mul_int(self, rhs: T) -> Self {
        held_number(mul_int_of(self.bits, rhs))
    }

    #[track_caller]
    fn saturating_div_int(self, rhs: T) -> Self {
        assert!(rhs != T::ZERO, "precondition: the divisor is not 0");
        saturating_number(div_int_of(self.bits, rhs))
    }

    #[track_caller]
    fn saturating_rem_euclid_int(self, rhs: T) -> Self {
        const {
            assert!(
                F <= T::BITS,
                "precondition: the fraction F is at most the width"
            )
        };
        assert!(rhs != T::ZERO, "precondition: the divisor is not 0");
        saturating_number(rem_euclid_int_of(self.bits, rhs, F))
    }

    #[track_caller]
    fn saturating_div_euclid_int(self, rhs: T) -> Self {
        const {
            assert!(
                F <= T::BITS,
                "precondition: the fraction F is at most the width"
            )
        };
        assert!(rhs != T::ZERO, "precondition: the divisor is not 0");
        saturating_number(div_euclid_int_of(self.bits, rhs, F))
    }

    #[track_caller]
    fn saturating_sqrt(self) -> Self {
        const {
            assert!(
                F <= T::BITS,
                "precondition: the fraction F is at most the width"
            )
        };
        assert!(
            !self.bits.is_below_zero(),
            "precondition: the number is not below 0"
        );
        saturating_number(sqrt_of(self.bits, F))
    }
}

/// The `saturating_` forms of signed numbers.
pub trait SaturatingSigned: Saturating {
    /// Returns the magnitude, saturated.
    ///
    /// # Examples
    ///
    /// ```
    /// use zugyelmas::prelude::*;
    /// type Number = FixedI8<4>; // from -8 to 7.9375
    /// let number = Number::from_num::<f64>;
    ///
    /// assert_eq!(number(-1.5).saturating_abs(), number(1.5));
    /// assert_eq!(Number::MIN.saturating_abs(), Number::MAX); // 8 does not fit
    /// ```
    ///
    /// # Proved
    ///
    /// ```text
    /// ensures { Some (Self.number result)
    ///     ≡ saturating Self.SIGNED Self.BITS (Some (exact_abs (Self.number self))) }
    /// ```
    ///
    /// Definitions: [`saturating`], [`exact_abs`].
    ///
    /// [`saturating`]: crate::definitions::word_policies
    /// [`exact_abs`]: crate::definitions::kernel_rows
    #[must_use]
    fn saturating_abs(self) -> Self;

    /// Returns the sign as a number: 1, 0 or -1, saturated.
    ///
    /// # Examples
    ///
    /// ```
    /// use zugyelmas::prelude::*;
    /// type Number = FixedI8<4>; // from -8 to 7.9375
    /// let number = Number::from_num::<f64>;
    ///
    /// assert_eq!(number(-2.5).saturating_signum(), number(-1.0));
    /// assert_eq!(number(0.0).saturating_signum(), number(0.0));
    /// // 1 does not fit
    /// assert_eq!(FixedI8::<7>::from_bits(64).saturating_signum(), FixedI8::MAX);
    /// ```
    ///
    /// # Compile errors
    ///
    /// Compiles only if the fraction F is at most the width.
    ///
    /// # Proved
    ///
    /// ```text
    /// requires { Self.FRACTION ≤ Self.BITS }
    /// ensures { Some (Self.number result) ≡ saturating Self.SIGNED Self.BITS
    ///     (Some (exact_signum (Self.number self) Self.FRACTION)) }
    /// ```
    ///
    /// Definitions: [`saturating`], [`exact_signum`].
    ///
    /// [`saturating`]: crate::definitions::word_policies
    /// [`exact_signum`]: crate::definitions::kernel_rows
    #[must_use]
    fn saturating_signum(self) -> Self;

    /// Returns the sum with an unsigned number, saturated.
    ///
    /// # Examples
    ///
    /// ```
    /// use zugyelmas::prelude::*;
    /// let number = FixedI8::<4>::from_num::<f64>; // from -8 to 7.9375
    /// let unsigned = FixedU8::<4>::from_num::<f64>; // from 0 to 15.9375
    ///
    /// assert_eq!(number(-1.5).saturating_add_unsigned(unsigned(9.0)), number(7.5));
    /// // 10.5 does not fit
    /// assert_eq!(number(1.5).saturating_add_unsigned(unsigned(9.0)), FixedI8::MAX);
    /// ```
    ///
    /// # Proved
    ///
    /// ```text
    /// ensures { Some (Self.number result) ≡ saturating Self.SIGNED Self.BITS
    ///     (Some (Self.number self +ℤ Self.Unsigned.number rhs)) }
    /// ```
    ///
    /// Definitions: [`saturating`].
    ///
    /// [`saturating`]: crate::definitions::word_policies
    #[must_use]
    fn saturating_add_unsigned(self, rhs: Self::Unsigned) -> Self;

    /// Returns the number minus an unsigned number, saturated.
    ///
    /// # Examples
    ///
    /// ```
    /// use zugyelmas::prelude::*;
    /// let number = FixedI8::<4>::from_num::<f64>; // from -8 to 7.9375
    /// let unsigned = FixedU8::<4>::from_num::<f64>; // from 0 to 15.9375
    ///
    /// assert_eq!(number(1.5).saturating_sub_unsigned(unsigned(9.0)), number(-7.5));
    /// // -10.5 does not fit
    /// assert_eq!(number(-1.5).saturating_sub_unsigned(unsigned(9.0)), FixedI8::MIN);
    /// ```
    ///
    /// # Proved
    ///
    /// ```text
    /// ensures { Some (Self.number result) ≡ saturating Self.SIGNED Self.BITS
    ///     (Some (Self.number self -ℤ Self.Unsigned.number rhs)) }
    /// ```
    ///
    /// Definitions: [`saturating`].
    ///
    /// [`saturating`]: crate::definitions::word_policies
    #[must_use]
    fn saturating_sub_unsigned(self, rhs: Self::Unsigned) -> Self;
}

impl<T: SignedWord, const F: u32> SaturatingSigned for Fixed<T, F> {
    fn saturating_abs(self) -> Self {
        // That it is in range bounds its magnitude.
        let _sign = self.bits.is_below_zero();
        capped_number(abs_of(self.bits))
    }

    #[track_caller]
    fn saturating_signum(self) -> Self {
        const {
            assert!(
                F <= T::BITS,
                "precondition: the fraction F is at most the width"
            )
        };
        saturating_number(signum_of(self.bits, F))
    }

    fn saturating_add_unsigned(self, rhs: Fixed<T::Unsigned, F>) -> Self {
        clamped_number(mixed_add_of(self.bits, rhs.bits))
    }

    fn saturating_sub_unsigned(self, rhs: Fixed<T::Unsigned, F>) -> Self {
        clamped_number(mixed_sub_of(self.bits, rhs.bits))
    }
}

/// The `saturating_` forms of unsigned numbers.
pub trait SaturatingUnsigned: Saturating {
    /// Returns the sum with a signed number, saturated.
    ///
    /// # Examples
    ///
    /// ```
    /// use zugyelmas::prelude::*;
    /// let number = FixedI8::<4>::from_num::<f64>; // from -8 to 7.9375
    /// let unsigned = FixedU8::<4>::from_num::<f64>; // from 0 to 15.9375
    ///
    /// assert_eq!(unsigned(9.0).saturating_add_signed(number(-1.5)), unsigned(7.5));
    /// // -0.5 does not fit
    /// assert_eq!(unsigned(1.5).saturating_add_signed(number(-2.0)), unsigned(0.0));
    /// ```
    ///
    /// # Proved
    ///
    /// ```text
    /// ensures { Some (Self.number result) ≡ saturating Self.SIGNED Self.BITS
    ///     (Some (Self.number self +ℤ Self.Signed.number rhs)) }
    /// ```
    ///
    /// Definitions: [`saturating`].
    ///
    /// [`saturating`]: crate::definitions::word_policies
    #[must_use]
    fn saturating_add_signed(self, rhs: Self::Signed) -> Self;

    /// Returns the number minus a signed number, saturated.
    ///
    /// # Examples
    ///
    /// ```
    /// use zugyelmas::prelude::*;
    /// let number = FixedI8::<4>::from_num::<f64>; // from -8 to 7.9375
    /// let unsigned = FixedU8::<4>::from_num::<f64>; // from 0 to 15.9375
    ///
    /// assert_eq!(unsigned(9.0).saturating_sub_signed(number(-1.5)), unsigned(10.5));
    /// // -0.5 does not fit
    /// assert_eq!(unsigned(1.5).saturating_sub_signed(number(2.0)), unsigned(0.0));
    /// ```
    ///
    /// # Proved
    ///
    /// ```text
    /// ensures { Some (Self.number result) ≡ saturating Self.SIGNED Self.BITS
    ///     (Some (Self.number self -ℤ Self.Signed.number rhs)) }
    /// ```
    ///
    /// Definitions: [`saturating`].
    ///
    /// [`saturating`]: crate::definitions::word_policies
    #[must_use]
    fn saturating_sub_signed(self, rhs: Self::Signed) -> Self;
}

impl<T: UnsignedWord, const F: u32> SaturatingUnsigned for Fixed<T, F> {
    fn saturating_add_signed(self, rhs: Fixed<T::Signed, F>) -> Self {
        clamped_number(mixed_add_of(self.bits, rhs.bits))
    }

    fn saturating_sub_signed(self, rhs: Fixed<T::Signed, F>) -> Self {
        clamped_number(mixed_sub_of(self.bits, rhs.bits))
    }
}
