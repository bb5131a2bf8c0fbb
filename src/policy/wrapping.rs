// Made by `make package` of crates/fixed_policy/src/wrapping.rt, which is proved: changes go there.

//! Operations that return the wrapped result.

use crate::kernel::{
    abs_of, add_of, dist_of, div_euclid_int_of, div_euclid_of, div_int_of, div_of, mixed_add_of,
    mixed_sub_of, mul_int_of, mul_of, neg_of, next_multiple_of_of, next_power_of_two_of, recip_of,
    rem_euclid_int_of, signum_of, sqrt_of, sub_of,
};
use crate::num::{Fixed, Held, Number, wrapping_number};
use crate::word::{RawWord, SignedWord, UnsignedWord, Word};

/// The `wrapping_` forms of all numbers. If the exact result does not fit, they return the number that fits and
/// differs from it by a multiple of `2^n` units, where n is the width. Results are in units of `2^-F`, and integer
/// operands are whole numbers. Precondition of each call that uses F: F is at most the width.
pub trait Wrapping: Number {
    /// Returns the negated number, wrapped.
    ///
    /// # Examples
    ///
    /// ```
    /// use zugyelmas::prelude::*;
    /// type Number = FixedI8<4>; // from -8 to 7.9375
    /// let number = Number::from_num::<f64>;
    ///
    /// assert_eq!(number(1.5).wrapping_neg(), number(-1.5));
    /// assert_eq!(Number::MIN.wrapping_neg(), Number::MIN); // 8 does not fit
    /// ```
    ///
    /// # Proved
    ///
    /// ```text
    /// ensures { Some (Self.number result)
    ///     ≡ wrapping Self.SIGNED Self.BITS (Some (neg_ℤ (Self.number self))) }
    /// ```
    ///
    /// Definitions: [`wrapping`].
    ///
    /// [`wrapping`]: crate::definitions::word_policies
    #[must_use]
    fn wrapping_neg(self) -> Self;

    /// Returns the sum, wrapped.
    ///
    /// # Examples
    ///
    /// ```
    /// use zugyelmas::prelude::*;
    /// type Number = FixedI8<4>; // from -8 to 7.9375
    /// let number = Number::from_num::<f64>;
    ///
    /// assert_eq!(number(1.5).wrapping_add(number(2.25)), number(3.75));
    /// assert_eq!(Number::MAX.wrapping_add(Number::DELTA), Number::MIN); // 8 does not fit
    /// ```
    ///
    /// # Proved
    ///
    /// ```text
    /// ensures { Some (Self.number result) ≡ wrapping Self.SIGNED Self.BITS
    ///     (Some (Self.number self +ℤ Self.number rhs)) }
    /// ```
    ///
    /// Definitions: [`wrapping`].
    ///
    /// [`wrapping`]: crate::definitions::word_policies
    #[must_use]
    fn wrapping_add(self, rhs: Self) -> Self;

    /// Returns the difference, wrapped.
    ///
    /// # Examples
    ///
    /// ```
    /// use zugyelmas::prelude::*;
    /// type Number = FixedI8<4>; // from -8 to 7.9375
    /// let number = Number::from_num::<f64>;
    ///
    /// assert_eq!(number(1.5).wrapping_sub(number(2.25)), number(-0.75));
    /// // -8.0625 does not fit
    /// assert_eq!(Number::MIN.wrapping_sub(Number::DELTA), Number::MAX);
    /// ```
    ///
    /// # Proved
    ///
    /// ```text
    /// ensures { Some (Self.number result) ≡ wrapping Self.SIGNED Self.BITS
    ///     (Some (Self.number self -ℤ Self.number rhs)) }
    /// ```
    ///
    /// Definitions: [`wrapping`].
    ///
    /// [`wrapping`]: crate::definitions::word_policies
    #[must_use]
    fn wrapping_sub(self, rhs: Self) -> Self;

    /// Returns the product, rounded down and wrapped.
    ///
    /// # Examples
    ///
    /// ```
    /// use zugyelmas::prelude::*;
    /// type Number = FixedI8<4>; // from -8 to 7.9375
    /// let number = Number::from_num::<f64>;
    ///
    /// assert_eq!(number(1.5).wrapping_mul(number(2.25)), number(3.375));
    /// // -0.03125, rounded down
    /// assert_eq!(number(0.5).wrapping_mul(number(-0.0625)), number(-0.0625));
    /// assert_eq!(number(4.0).wrapping_mul(number(2.0)), Number::MIN); // 8 does not fit
    /// ```
    ///
    /// # Compile errors
    ///
    /// Compiles only if the fraction F is at most the width.
    ///
    /// # Proved
    ///
    /// ```text
    /// requires { Self.FRACTION ≤ Self.BITS }
    /// ensures { Some (Self.number result) ≡ wrapping Self.SIGNED Self.BITS
    ///     (Some (exact_mul (Self.number self) (Self.number rhs) Self.FRACTION)) }
    /// ```
    ///
    /// Definitions: [`wrapping`], [`exact_mul`].
    ///
    /// [`wrapping`]: crate::definitions::word_policies
    /// [`exact_mul`]: crate::definitions::kernel_rows
    #[must_use]
    fn wrapping_mul(self, rhs: Self) -> Self;

    /// Returns the quotient, rounded toward zero and wrapped. Precondition: the divisor is not 0.
    ///
    /// # Examples
    ///
    /// ```
    /// use zugyelmas::prelude::*;
    /// type Number = FixedI8<4>; // from -8 to 7.9375
    /// let number = Number::from_num::<f64>;
    ///
    /// assert_eq!(number(3.0).wrapping_div(number(2.0)), number(1.5));
    /// // -1/3, rounded toward zero
    /// assert_eq!(number(-1.0).wrapping_div(number(3.0)), number(-0.3125));
    /// assert_eq!(number(4.0).wrapping_div(number(0.5)), Number::MIN); // 8 does not fit
    /// ```
    ///
    /// ```should_panic
    /// # use zugyelmas::prelude::*;
    /// # type Number = FixedI8<4>; // from -8 to 7.9375
    /// # let number = Number::from_num::<f64>;
    /// # std::panic::set_hook(Box::new(|_| {}));
    /// number(1.0).wrapping_div(number(0.0)); // the divisor is 0
    /// ```
    ///
    /// # Compile errors
    ///
    /// Compiles only if the fraction F is at most the width.
    ///
    /// # Panics
    ///
    /// Panics unless the divisor is not 0.
    ///
    /// # Proved
    ///
    /// ```text
    /// requires fraction { Self.FRACTION ≤ Self.BITS }
    /// requires divisor { Self.number rhs ≢ pos 0 }
    /// ensures { Some (Self.number result) ≡ wrapping Self.SIGNED Self.BITS
    ///     (Some (exact_div (Self.number self) (Self.number rhs) Self.FRACTION)) }
    /// ```
    ///
    /// Definitions: [`wrapping`], [`exact_div`].
    ///
    /// [`wrapping`]: crate::definitions::word_policies
    /// [`exact_div`]: crate::definitions::kernel_rows
    #[must_use]
    fn wrapping_div(self, rhs: Self) -> Self;

    /// Returns 1 over the number, rounded toward zero and wrapped. Precondition: the number is not 0.
    ///
    /// # Examples
    ///
    /// ```
    /// use zugyelmas::prelude::*;
    /// type Number = FixedI8<4>; // from -8 to 7.9375
    /// let number = Number::from_num::<f64>;
    ///
    /// assert_eq!(number(2.0).wrapping_recip(), number(0.5));
    /// // -1/3, rounded toward zero
    /// assert_eq!(number(-3.0).wrapping_recip(), number(-0.3125));
    /// assert_eq!(number(0.125).wrapping_recip(), Number::MIN); // 8 does not fit
    /// ```
    ///
    /// ```should_panic
    /// # use zugyelmas::prelude::*;
    /// # type Number = FixedI8<4>; // from -8 to 7.9375
    /// # let number = Number::from_num::<f64>;
    /// # std::panic::set_hook(Box::new(|_| {}));
    /// number(0.0).wrapping_recip(); // the divisor is 0
    /// ```
    ///
    /// # Compile errors
    ///
    /// Compiles only if the fraction F is at most the width.
    ///
    /// # Panics
    ///
    /// Panics unless the divisor is not 0.
    ///
    /// # Proved
    ///
    /// ```text
    /// requires fraction { Self.FRACTION ≤ Self.BITS }
    /// requires divisor { Self.number self ≢ pos 0 }
    /// ensures { Some (Self.number result) ≡ wrapping Self.SIGNED Self.BITS
    ///     (Some (exact_recip (Self.number self) Self.FRACTION)) }
    /// ```
    ///
    /// Definitions: [`wrapping`], [`exact_recip`].
    ///
    /// [`wrapping`]: crate::definitions::word_policies
    /// [`exact_recip`]: crate::definitions::kernel_rows
    #[must_use]
    fn wrapping_recip(self) -> Self;

    /// Returns the Euclidean quotient, which is a whole number, wrapped. Precondition: the divisor is not 0.
    ///
    /// # Examples
    ///
    /// ```
    /// use zugyelmas::prelude::*;
    /// type Number = FixedI8<4>; // from -8 to 7.9375
    /// let number = Number::from_num::<f64>;
    ///
    /// assert_eq!(number(5.5).wrapping_div_euclid(number(2.0)), number(2.0));
    /// // the remainder is 0.5
    /// assert_eq!(number(-5.5).wrapping_div_euclid(number(2.0)), number(-3.0));
    /// // 15 does not fit
    /// assert_eq!(number(7.5).wrapping_div_euclid(number(0.5)), number(-1.0));
    /// ```
    ///
    /// ```should_panic
    /// # use zugyelmas::prelude::*;
    /// # type Number = FixedI8<4>; // from -8 to 7.9375
    /// # let number = Number::from_num::<f64>;
    /// # std::panic::set_hook(Box::new(|_| {}));
    /// number(5.5).wrapping_div_euclid(number(0.0)); // the divisor is 0
    /// ```
    ///
    /// # Compile errors
    ///
    /// Compiles only if the fraction F is at most the width.
    ///
    /// # Panics
    ///
    /// Panics unless the divisor is not 0.
    ///
    /// # Proved
    ///
    /// ```text
    /// requires fraction { Self.FRACTION ≤ Self.BITS }
    /// requires divisor { Self.number rhs ≢ pos 0 }
    /// ensures { Some (Self.number result) ≡ wrapping Self.SIGNED Self.BITS
    ///     (Some (exact_div_euclid (Self.number self) (Self.number rhs) Self.FRACTION)) }
    /// ```
    ///
    /// Definitions: [`wrapping`], [`exact_div_euclid`].
    ///
    /// [`wrapping`]: crate::definitions::word_policies
    /// [`exact_div_euclid`]: crate::definitions::kernel_rows
    #[must_use]
    fn wrapping_div_euclid(self, rhs: Self) -> Self;

    /// Returns the distance between the numbers, wrapped.
    ///
    /// # Examples
    ///
    /// ```
    /// use zugyelmas::prelude::*;
    /// type Number = FixedI8<4>; // from -8 to 7.9375
    /// let number = Number::from_num::<f64>;
    ///
    /// assert_eq!(number(1.5).wrapping_dist(number(-2.0)), number(3.5));
    /// // 15.9375 does not fit
    /// assert_eq!(Number::MAX.wrapping_dist(Number::MIN), number(-0.0625));
    /// ```
    ///
    /// # Proved
    ///
    /// ```text
    /// ensures { Some (Self.number result) ≡ wrapping Self.SIGNED Self.BITS
    ///     (Some (exact_abs (Self.number self -ℤ Self.number other))) }
    /// ```
    ///
    /// Definitions: [`wrapping`], [`exact_abs`].
    ///
    /// [`wrapping`]: crate::definitions::word_policies
    /// [`exact_abs`]: crate::definitions::kernel_rows
    #[must_use]
    fn wrapping_dist(self, other: Self) -> Self;

    /// Returns the next multiple of `other`, upward if `other` is positive and downward if it is negative, wrapped.
    /// Precondition: `other` is not 0.
    ///
    /// # Examples
    ///
    /// ```
    /// use zugyelmas::prelude::*;
    /// type Number = FixedI8<4>; // from -8 to 7.9375
    /// let number = Number::from_num::<f64>;
    ///
    /// assert_eq!(number(2.5).wrapping_next_multiple_of(number(1.0)), number(3.0));
    /// // downward, by the sign of the divisor
    /// assert_eq!(number(2.5).wrapping_next_multiple_of(number(-1.0)), number(2.0));
    /// // 8 does not fit
    /// assert_eq!(number(7.5).wrapping_next_multiple_of(number(1.0)), Number::MIN);
    /// ```
    ///
    /// ```should_panic
    /// # use zugyelmas::prelude::*;
    /// # type Number = FixedI8<4>; // from -8 to 7.9375
    /// # let number = Number::from_num::<f64>;
    /// # std::panic::set_hook(Box::new(|_| {}));
    /// number(2.5).wrapping_next_multiple_of(number(0.0)); // the divisor is 0
    /// ```
    ///
    /// # Panics
    ///
    /// Panics unless the divisor is not 0.
    ///
    /// # Proved
    ///
    /// ```text
    /// requires { Self.number other ≢ pos 0 }
    /// ensures { Some (Self.number result) ≡ wrapping Self.SIGNED Self.BITS
    ///     (Some (exact_next_multiple_of (Self.number self) (Self.number other))) }
    /// ```
    ///
    /// Definitions: [`wrapping`], [`exact_next_multiple_of`].
    ///
    /// [`wrapping`]: crate::definitions::word_policies
    /// [`exact_next_multiple_of`]: crate::definitions::kernel_rows
    #[must_use]
    fn wrapping_next_multiple_of(self, other: Self) -> Self;

    /// Returns the product by an integer, wrapped.
    ///
    /// # Examples
    ///
    /// ```
    /// use zugyelmas::prelude::*;
    /// type Number = FixedI8<4>; // from -8 to 7.9375
    /// let number = Number::from_num::<f64>;
    ///
    /// assert_eq!(number(1.5).wrapping_mul_int(3), number(4.5));
    /// assert_eq!(number(1.5).wrapping_mul_int(6), number(-7.0)); // 9 does not fit
    /// ```
    ///
    /// # Proved
    ///
    /// ```text
    /// ensures { Some (Self.number result) ≡ wrapping Self.SIGNED Self.BITS
    ///     (Some (Self.number self *ℤ Self.Bits.value rhs)) }
    /// ```
    ///
    /// Definitions: [`wrapping`].
    ///
    /// [`wrapping`]: crate::definitions::word_policies
    #[must_use]
    fn wrapping_mul_int(self, rhs: Self::Bits) -> Self;

    /// Returns the quotient by an integer, rounded toward zero and wrapped. Precondition: the divisor is not 0.
    ///
    /// # Examples
    ///
    /// ```
    /// use zugyelmas::prelude::*;
    /// type Number = FixedI8<4>; // from -8 to 7.9375
    /// let number = Number::from_num::<f64>;
    ///
    /// assert_eq!(number(4.5).wrapping_div_int(3), number(1.5));
    /// // -0.03125, rounded toward zero
    /// assert_eq!(number(-0.0625).wrapping_div_int(2), number(0.0));
    /// assert_eq!(Number::MIN.wrapping_div_int(-1), Number::MIN); // 8 does not fit
    /// ```
    ///
    /// ```should_panic
    /// # use zugyelmas::prelude::*;
    /// # type Number = FixedI8<4>; // from -8 to 7.9375
    /// # let number = Number::from_num::<f64>;
    /// # std::panic::set_hook(Box::new(|_| {}));
    /// number(4.5).wrapping_div_int(0); // the divisor is 0
    /// ```
    ///
    /// # Panics
    ///
    /// Panics unless the divisor is not 0.
    ///
    /// # Proved
    ///
    /// ```text
    /// requires { Self.Bits.value rhs ≢ pos 0 }
    /// ensures { Some (Self.number result) ≡ wrapping Self.SIGNED Self.BITS
    ///     (Some (truncated_quotient (Self.number self) (Self.Bits.value rhs))) }
    /// ```
    ///
    /// Definitions: [`wrapping`], [`truncated_quotient`].
    ///
    /// [`wrapping`]: crate::definitions::word_policies
    /// [`truncated_quotient`]: crate::definitions::word_quotient
    #[must_use]
    fn wrapping_div_int(self, rhs: Self::Bits) -> Self;

    /// Returns the Euclidean remainder by an integer, wrapped. Precondition: the divisor is not 0.
    ///
    /// # Examples
    ///
    /// ```
    /// use zugyelmas::prelude::*;
    /// type Number = FixedI8<4>; // from -8 to 7.9375
    /// let number = Number::from_num::<f64>;
    ///
    /// assert_eq!(number(5.5).wrapping_rem_euclid_int(2), number(1.5));
    /// assert_eq!(number(-5.5).wrapping_rem_euclid_int(2), number(0.5)); // never below 0
    /// // 8.9375 does not fit
    /// assert_eq!(number(-0.0625).wrapping_rem_euclid_int(9), number(-7.0625));
    /// ```
    ///
    /// ```should_panic
    /// # use zugyelmas::prelude::*;
    /// # type Number = FixedI8<4>; // from -8 to 7.9375
    /// # let number = Number::from_num::<f64>;
    /// # std::panic::set_hook(Box::new(|_| {}));
    /// number(5.5).wrapping_rem_euclid_int(0); // the divisor is 0
    /// ```
    ///
    /// # Compile errors
    ///
    /// Compiles only if the fraction F is at most the width.
    ///
    /// # Panics
    ///
    /// Panics unless the divisor is not 0.
    ///
    /// # Proved
    ///
    /// ```text
    /// requires fraction { Self.FRACTION ≤ Self.BITS }
    /// requires divisor { Self.Bits.value rhs ≢ pos 0 }
    /// ensures { Some (Self.number result) ≡ wrapping Self.SIGNED Self.BITS
    ///     (Some (euclidean_remainder (Self.number self) (units (Self.Bits.value rhs) Self.FRACTION))) }
    /// ```
    ///
    /// Definitions: [`wrapping`], [`euclidean_remainder`], [`units`].
    ///
    /// [`wrapping`]: crate::definitions::word_policies
    /// [`euclidean_remainder`]: crate::definitions::word_quotient
    /// [`units`]: crate::definitions::kernel_rows
    #[must_use]
    fn wrapping_rem_euclid_int(self, rhs: Self::Bits) -> Self;

    /// Returns the Euclidean quotient by an integer, which is a whole number, wrapped. Precondition: the divisor is
    /// not 0.
    ///
    /// # Examples
    ///
    /// ```
    /// use zugyelmas::prelude::*;
    /// type Number = FixedI8<4>; // from -8 to 7.9375
    /// let number = Number::from_num::<f64>;
    ///
    /// assert_eq!(number(5.5).wrapping_div_euclid_int(2), number(2.0));
    /// // the remainder is 0.5
    /// assert_eq!(number(-5.5).wrapping_div_euclid_int(2), number(-3.0));
    /// assert_eq!(Number::MIN.wrapping_div_euclid_int(-1), Number::MIN); // 8 does not fit
    /// ```
    ///
    /// ```should_panic
    /// # use zugyelmas::prelude::*;
    /// # type Number = FixedI8<4>; // from -8 to 7.9375
    /// # let number = Number::from_num::<f64>;
    /// # std::panic::set_hook(Box::new(|_| {}));
    /// number(5.5).wrapping_div_euclid_int(0); // the divisor is 0
    /// ```
    ///
    /// # Compile errors
    ///
    /// Compiles only if the fraction F is at most the width.
    ///
    /// # Panics
    ///
    /// Panics unless the divisor is not 0.
    ///
    /// # Proved
    ///
    /// ```text
    /// requires fraction { Self.FRACTION ≤ Self.BITS }
    /// requires divisor { Self.Bits.value rhs ≢ pos 0 }
    /// ensures { Some (Self.number result) ≡ wrapping Self.SIGNED Self.BITS
    ///     (Some (exact_div_euclid (Self.number self) (units (Self.Bits.value rhs) Self.FRACTION) Self.FRACTION)) }
    /// ```
    ///
    /// Definitions: [`wrapping`], [`exact_div_euclid`], [`units`].
    ///
    /// [`wrapping`]: crate::definitions::word_policies
    /// [`exact_div_euclid`]: crate::definitions::kernel_rows
    /// [`units`]: crate::definitions::kernel_rows
    #[must_use]
    fn wrapping_div_euclid_int(self, rhs: Self::Bits) -> Self;

    /// Returns the square root, rounded down and wrapped. Precondition: the number is not negative.
    ///
    /// # Examples
    ///
    /// ```
    /// use zugyelmas::prelude::*;
    /// type Number = FixedI8<4>; // from -8 to 7.9375
    /// let number = Number::from_num::<f64>;
    ///
    /// assert_eq!(number(2.25).wrapping_sqrt(), number(1.5));
    /// assert_eq!(number(2.0).wrapping_sqrt(), number(1.375)); // 1.414.., rounded down
    /// // the root of 0.25 does not fit
    /// assert_eq!(FixedI8::<8>::from_bits(64).wrapping_sqrt(), FixedI8::MIN);
    /// ```
    ///
    /// ```should_panic
    /// # use zugyelmas::prelude::*;
    /// # type Number = FixedI8<4>; // from -8 to 7.9375
    /// # let number = Number::from_num::<f64>;
    /// # std::panic::set_hook(Box::new(|_| {}));
    /// number(-1.0).wrapping_sqrt(); // no root
    /// ```
    ///
    /// # Compile errors
    ///
    /// Compiles only if the fraction F is at most the width.
    ///
    /// # Panics
    ///
    /// Panics unless the number is not below 0.
    ///
    /// # Proved
    ///
    /// ```text
    /// requires fraction { Self.FRACTION ≤ Self.BITS }
    /// requires sign { pos 0 ≤ℤ Self.number self }
    /// ensures { Some (Self.number result)
    ///     ≡ wrapping Self.SIGNED Self.BITS (Some (root_of (Self.number self) Self.FRACTION)) }
    /// ```
    ///
    /// Definitions: [`wrapping`], [`root_of`].
    ///
    /// [`wrapping`]: crate::definitions::word_policies
    /// [`root_of`]: crate::definitions::root_root
    #[must_use]
    fn wrapping_sqrt(self) -> Self;

    /// Returns the bits shifted left by `rhs` modulo the width; bits shifted out are lost.
    ///
    /// # Examples
    ///
    /// ```
    /// use zugyelmas::prelude::*;
    /// type Number = FixedI8<4>; // from -8 to 7.9375
    /// let number = Number::from_num::<f64>;
    ///
    /// assert_eq!(number(1.5).wrapping_shl(2), number(6.0));
    /// // 12 without the bits past the width
    /// assert_eq!(number(1.5).wrapping_shl(3), number(-4.0));
    /// assert_eq!(number(1.5).wrapping_shl(9), number(3.0)); // the shift is not below 8
    /// ```
    ///
    /// # Proved
    ///
    /// ```text
    /// ensures { Self.number result
    ///     ≡ wrap Self.SIGNED Self.BITS (Self.number self *ℤ pos (2 ^ (rhs % Self.BITS))) }
    /// ```
    ///
    /// Definitions: [`wrap`].
    ///
    /// [`wrap`]: crate::definitions::word_format
    #[must_use]
    fn wrapping_shl(self, rhs: u32) -> Self;

    /// Returns the bits shifted right by `rhs` modulo the width, rounded down.
    ///
    /// # Examples
    ///
    /// ```
    /// use zugyelmas::prelude::*;
    /// type Number = FixedI8<4>; // from -8 to 7.9375
    /// let number = Number::from_num::<f64>;
    ///
    /// assert_eq!(number(1.5).wrapping_shr(1), number(0.75));
    /// // -0.03125, rounded down
    /// assert_eq!(number(-0.0625).wrapping_shr(1), number(-0.0625));
    /// assert_eq!(number(1.5).wrapping_shr(9), number(0.75)); // the shift is not below 8
    /// ```
    ///
    /// # Proved
    ///
    /// ```text
    /// ensures { Self.number result ≡ floor_quotient (Self.number self) (2 ^ (rhs % Self.BITS)) }
    /// ```
    ///
    /// Definitions: [`floor_quotient`].
    ///
    /// [`floor_quotient`]: crate::definitions::word_quotient
    #[must_use]
    fn wrapping_shr(self, rhs: u32) -> Self;
}

impl<T: Word, const F: u32> Wrapping for Fixed<T, F> {
    fn wrapping_neg(self) -> Self {
        wrapping_number(neg_of(self.bits))
    }

    fn wrapping_add(self, rhs: Self) -> Self {
        wrapping_number(add_of(self.bits, rhs.bits))
    }

    fn wrapping_sub(self, rhs: Self) -> Self {
        wrapping_number(sub_of(self.bits, rhs.bits))
    }

    #[track_caller]
    fn wrapping_mul(self, rhs: Self) -> Self {
        const {
            assert!(
                F <= T::BITS,
                "precondition: the fraction F is at most the width"
            )
        };
        wrapping_number(mul_of(self.bits, rhs.bits, F))
    }

    #[track_caller]
    fn wrapping_div(self, rhs: Self) -> Self {
        const {
            assert!(
                F <= T::BITS,
                "precondition: the fraction F is at most the width"
            )
        };
        assert!(rhs.bits != T::ZERO, "precondition: the divisor is not 0");
        wrapping_number(div_of(self.bits, rhs.bits, F))
    }

    #[track_caller]
    fn wrapping_recip(self) -> Self {
        const {
            assert!(
                F <= T::BITS,
                "precondition: the fraction F is at most the width"
            )
        };
        assert!(self.bits != T::ZERO, "precondition: the divisor is not 0");
        wrapping_number(recip_of(self.bits, F))
    }

    #[track_caller]
    fn wrapping_div_euclid(self, rhs: Self) -> Self {
        const {
            assert!(
                F <= T::BITS,
                "precondition: the fraction F is at most the width"
            )
        };
        assert!(rhs.bits != T::ZERO, "precondition: the divisor is not 0");
        wrapping_number(div_euclid_of(self.bits, rhs.bits, F))
    }

    fn wrapping_dist(self, other: Self) -> Self {
        wrapping_number(dist_of(self.bits, other.bits))
    }

    #[track_caller]
    fn wrapping_next_multiple_of(self, other: Self) -> Self {
        assert!(other.bits != T::ZERO, "precondition: the divisor is not 0");
        wrapping_number(next_multiple_of_of(self.bits, other.bits))
    }

    fn wrapping_mul_int(self, rhs: T) -> Self {
        wrapping_number(mul_int_of(self.bits, rhs))
    }

    #[track_caller]
    fn wrapping_div_int(self, rhs: T) -> Self {
        assert!(rhs != T::ZERO, "precondition: the divisor is not 0");
        wrapping_number(div_int_of(self.bits, rhs))
    }

    #[track_caller]
    fn wrapping_rem_euclid_int(self, rhs: T) -> Self {
        const {
            assert!(
                F <= T::BITS,
                "precondition: the fraction F is at most the width"
            )
        };
        assert!(rhs != T::ZERO, "precondition: the divisor is not 0");
        wrapping_number(rem_euclid_int_of(self.bits, rhs, F))
    }

    #[track_caller]
    fn wrapping_div_euclid_int(self, rhs: T) -> Self {
        const {
            assert!(
                F <= T::BITS,
                "precondition: the fraction F is at most the width"
            )
        };
        assert!(rhs != T::ZERO, "precondition: the divisor is not 0");
        wrapping_number(div_euclid_int_of(self.bits, rhs, F))
    }

    #[track_caller]
    fn wrapping_sqrt(self) -> Self {
        const {
            assert!(
                F <= T::BITS,
                "precondition: the fraction F is at most the width"
            )
        };
        assert!(
            !self.bits.is_below_zero(),
            "precondition: the number is not below 0"
        );
        wrapping_number(sqrt_of(self.bits, F))
    }

    fn wrapping_shl(self, rhs: u32) -> Self {
        self.unbounded_shl(rhs % T::BITS)
    }

    fn wrapping_shr(self, rhs: u32) -> Self {
        self.unbounded_shr(rhs % T::BITS)
    }
}

/// The `wrapping_` forms of signed numbers.
pub trait WrappingSigned: Wrapping {
    /// Returns the magnitude, wrapped.
    ///
    /// # Examples
    ///
    /// ```
    /// use zugyelmas::prelude::*;
    /// type Number = FixedI8<4>; // from -8 to 7.9375
    /// let number = Number::from_num::<f64>;
    ///
    /// assert_eq!(number(-1.5).wrapping_abs(), number(1.5));
    /// assert_eq!(Number::MIN.wrapping_abs(), Number::MIN); // 8 does not fit
    /// ```
    ///
    /// # Proved
    ///
    /// ```text
    /// ensures { Some (Self.number result)
    ///     ≡ wrapping Self.SIGNED Self.BITS (Some (exact_abs (Self.number self))) }
    /// ```
    ///
    /// Definitions: [`wrapping`], [`exact_abs`].
    ///
    /// [`wrapping`]: crate::definitions::word_policies
    /// [`exact_abs`]: crate::definitions::kernel_rows
    #[must_use]
    fn wrapping_abs(self) -> Self;

    /// Returns the sign as a number: 1, 0 or -1, wrapped.
    ///
    /// # Examples
    ///
    /// ```
    /// use zugyelmas::prelude::*;
    /// type Number = FixedI8<4>; // from -8 to 7.9375
    /// let number = Number::from_num::<f64>;
    ///
    /// assert_eq!(number(-2.5).wrapping_signum(), number(-1.0));
    /// assert_eq!(number(0.0).wrapping_signum(), number(0.0));
    /// // 1 does not fit
    /// assert_eq!(FixedI8::<7>::from_bits(64).wrapping_signum(), FixedI8::MIN);
    /// ```
    ///
    /// # Compile errors
    ///
    /// Compiles only if the fraction F is at most the width.
    ///
    /// # Proved
    ///
    /// ```text
    /// requires { Self.FRACTION ≤ Self.BITS }
    /// ensures { Some (Self.number result) ≡ wrapping Self.SIGNED Self.BITS
    ///     (Some (exact_signum (Self.number self) Self.FRACTION)) }
    /// ```
    ///
    /// Definitions: [`wrapping`], [`exact_signum`].
    ///
    /// [`wrapping`]: crate::definitions::word_policies
    /// [`exact_signum`]: crate::definitions::kernel_rows
    #[must_use]
    fn wrapping_signum(self) -> Self;

    /// Returns the sum with an unsigned number, wrapped.
    ///
    /// # Examples
    ///
    /// ```
    /// use zugyelmas::prelude::*;
    /// let number = FixedI8::<4>::from_num::<f64>; // from -8 to 7.9375
    /// let unsigned = FixedU8::<4>::from_num::<f64>; // from 0 to 15.9375
    ///
    /// assert_eq!(number(-1.5).wrapping_add_unsigned(unsigned(9.0)), number(7.5));
    /// // 10.5 does not fit
    /// assert_eq!(number(1.5).wrapping_add_unsigned(unsigned(9.0)), number(-5.5));
    /// ```
    ///
    /// # Proved
    ///
    /// ```text
    /// ensures { Some (Self.number result) ≡ wrapping Self.SIGNED Self.BITS
    ///     (Some (Self.number self +ℤ Self.Unsigned.number rhs)) }
    /// ```
    ///
    /// Definitions: [`wrapping`].
    ///
    /// [`wrapping`]: crate::definitions::word_policies
    #[must_use]
    fn wrapping_add_unsigned(self, rhs: Self::Unsigned) -> Self;

    /// Returns the number minus an unsigned number, wrapped.
    ///
    /// # Examples
    ///
    /// ```
    /// use zugyelmas::prelude::*;
    /// let number = FixedI8::<4>::from_num::<f64>; // from -8 to 7.9375
    /// let unsigned = FixedU8::<4>::from_num::<f64>; // from 0 to 15.9375
    ///
    /// assert_eq!(number(1.5).wrapping_sub_unsigned(unsigned(9.0)), number(-7.5));
    /// // -10.5 does not fit
    /// assert_eq!(number(-1.5).wrapping_sub_unsigned(unsigned(9.0)), number(5.5));
    /// ```
    ///
    /// # Proved
    ///
    /// ```text
    /// ensures { Some (Self.number result) ≡ wrapping Self.SIGNED Self.BITS
    ///     (Some (Self.number self -ℤ Self.Unsigned.number rhs)) }
    /// ```
    ///
    /// Definitions: [`wrapping`].
    ///
    /// [`wrapping`]: crate::definitions::word_policies
    #[must_use]
    fn wrapping_sub_unsigned(self, rhs: Self::Unsigned) -> Self;
}

impl<T: SignedWord, const F: u32> WrappingSigned for Fixed<T, F> {
    fn wrapping_abs(self) -> Self {
        wrapping_number(abs_of(self.bits))
    }

    #[track_caller]
    fn wrapping_signum(self) -> Self {
        const {
            assert!(
                F <= T::BITS,
                "precondition: the fraction F is at most the width"
            )
        };
        wrapping_number(signum_of(self.bits, F))
    }

    fn wrapping_add_unsigned(self, rhs: Fixed<T::Unsigned, F>) -> Self {
        wrapping_number(mixed_add_of(self.bits, rhs.bits))
    }

    fn wrapping_sub_unsigned(self, rhs: Fixed<T::Unsigned, F>) -> Self {
        wrapping_number(mixed_sub_of(self.bits, rhs.bits))
    }
}

/// The `wrapping_` forms of unsigned numbers.
pub trait WrappingUnsigned: Wrapping {
    /// Returns the least number, not below this one, whose bits are a power of two, wrapped.
    ///
    /// # Examples
    ///
    /// ```
    /// use zugyelmas::prelude::*;
    /// let number = FixedI8::<4>::from_num::<f64>; // from -8 to 7.9375
    /// let unsigned = FixedU8::<4>::from_num::<f64>; // from 0 to 15.9375
    ///
    /// // from 40 bits to 64 bits
    /// assert_eq!(unsigned(2.5).wrapping_next_power_of_two(), unsigned(4.0));
    /// // the least power of two of the bits is 1
    /// assert_eq!(unsigned(0.0).wrapping_next_power_of_two(), unsigned(0.0625));
    /// // 16 does not fit
    /// assert_eq!(unsigned(9.0).wrapping_next_power_of_two(), unsigned(0.0));
    /// ```
    ///
    /// # Proved
    ///
    /// ```text
    /// ensures { Some (Self.number result)
    ///     ≡ wrapping Self.SIGNED Self.BITS (Some (exact_next_power_of_two (Self.number self))) }
    /// ```
    ///
    /// Definitions: [`wrapping`], [`exact_next_power_of_two`].
    ///
    /// [`wrapping`]: crate::definitions::word_policies
    /// [`exact_next_power_of_two`]: crate::definitions::kernel_rows
    #[must_use]
    fn wrapping_next_power_of_two(self) -> Self;

    /// Returns the sum with a signed number, wrapped.
    ///
    /// # Examples
    ///
    /// ```
    /// use zugyelmas::prelude::*;
    /// let number = FixedI8::<4>::from_num::<f64>; // from -8 to 7.9375
    /// let unsigned = FixedU8::<4>::from_num::<f64>; // from 0 to 15.9375
    ///
    /// assert_eq!(unsigned(9.0).wrapping_add_signed(number(-1.5)), unsigned(7.5));
    /// // -0.5 does not fit
    /// assert_eq!(unsigned(1.5).wrapping_add_signed(number(-2.0)), unsigned(15.5));
    /// ```
    ///
    /// # Proved
    ///
    /// ```text
    /// ensures { Some (Self.number result) ≡ wrapping Self.SIGNED Self.BITS
    ///     (Some (Self.number self +ℤ Self.Signed.number rhs)) }
    /// ```
    ///
    /// Definitions: [`wrapping`].
    ///
    /// [`wrapping`]: crate::definitions::word_policies
    #[must_use]
    fn wrapping_add_signed(self, rhs: Self::Signed) -> Self;

    /// Returns the number minus a signed number, wrapped.
    ///
    /// # Examples
    ///
    /// ```
    /// use zugyelmas::prelude::*;
    /// let number = FixedI8::<4>::from_num::<f64>; // from -8 to 7.9375
    /// let unsigned = FixedU8::<4>::from_num::<f64>; // from 0 to 15.9375
    ///
    /// assert_eq!(unsigned(9.0).wrapping_sub_signed(number(-1.5)), unsigned(10.5));
    /// // -0.5 does not fit
    /// assert_eq!(unsigned(1.5).wrapping_sub_signed(number(2.0)), unsigned(15.5));
    /// ```
    ///
    /// # Proved
    ///
    /// ```text
    /// ensures { Some (Self.number result) ≡ wrapping Self.SIGNED Self.BITS
    ///     (Some (Self.number self -ℤ Self.Signed.number rhs)) }
    /// ```
    ///
    /// Definitions: [`wrapping`].
    ///
    /// [`wrapping`]: crate::definitions::word_policies
    #[must_use]
    fn wrapping_sub_signed(self, rhs: Self::Signed) -> Self;
}

impl<T: UnsignedWord, const F: u32> WrappingUnsigned for Fixed<T, F> {
    fn wrapping_next_power_of_two(self) -> Self {
        wrapping_number(next_power_of_two_of(self.bits))
    }

    fn wrapping_add_signed(self, rhs: Fixed<T::Signed, F>) -> Self {
        wrapping_number(mixed_add_of(self.bits, rhs.bits))
    }

    fn wrapping_sub_signed(self, rhs: Fixed<T::Signed, F>) -> Self {
        wrapping_number(mixed_sub_of(self.bits, rhs.bits))
    }
}
