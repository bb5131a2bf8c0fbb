// Made by `make package` of crates/fixed_policy/src/overflowing.rt, which is proved: changes go there.

//! Operations that return the wrapped result, and whether the exact result does not fit.

use crate::kernel::{
    abs_of, add_of, dist_of, div_euclid_int_of, div_euclid_of, div_int_of, div_of, mixed_add_of,
    mixed_sub_of, mul_int_of, mul_of, neg_of, next_multiple_of_of, recip_of, rem_euclid_int_of,
    signum_of, sqrt_of, sub_of,
};
use crate::num::{Fixed, Held, Number, overflowing_number};
use crate::word::{RawWord, SignedWord, UnsignedWord, Word};

/// The `overflowing_` forms of all numbers. They return the wrapped result, and whether the exact result does not
/// fit. Results are in units of `2^-F`, and integer operands are whole numbers. Precondition of each call that uses
/// F: F is at most the width.
pub trait Overflowing: Number {
    /// Returns the negated number, wrapped, and whether the exact result does not fit.
    ///
    /// # Examples
    ///
    /// ```
    /// use zugyelmas::prelude::*;
    /// type Number = FixedI8<4>; // from -8 to 7.9375
    /// let number = Number::from_num::<f64>;
    ///
    /// assert_eq!(number(1.5).overflowing_neg(), (number(-1.5), false));
    /// assert_eq!(Number::MIN.overflowing_neg(), (Number::MIN, true)); // 8 does not fit
    /// ```
    ///
    /// # Proved
    ///
    /// ```text
    /// ensures { Some (Self.number result.0, result.1)
    ///     ≡ overflowing Self.SIGNED Self.BITS (Some (neg_ℤ (Self.number self))) }
    /// ```
    ///
    /// Definitions: [`overflowing`].
    ///
    /// [`overflowing`]: crate::definitions::word_policies
    #[must_use]
    fn overflowing_neg(self) -> (Self, bool);

    /// Returns the sum, wrapped, and whether the exact result does not fit.
    ///
    /// # Examples
    ///
    /// ```
    /// use zugyelmas::prelude::*;
    /// type Number = FixedI8<4>; // from -8 to 7.9375
    /// let number = Number::from_num::<f64>;
    ///
    /// assert_eq!(number(1.5).overflowing_add(number(2.25)), (number(3.75), false));
    /// // 8 does not fit
    /// assert_eq!(Number::MAX.overflowing_add(Number::DELTA), (Number::MIN, true));
    /// ```
    ///
    /// # Proved
    ///
    /// ```text
    /// ensures { Some (Self.number result.0, result.1) ≡ overflowing Self.SIGNED Self.BITS
    ///     (Some (Self.number self +ℤ Self.number rhs)) }
    /// ```
    ///
    /// Definitions: [`overflowing`].
    ///
    /// [`overflowing`]: crate::definitions::word_policies
    #[must_use]
    fn overflowing_add(self, rhs: Self) -> (Self, bool);

    /// Returns the difference, wrapped, and whether the exact result does not fit.
    ///
    /// # Examples
    ///
    /// ```
    /// use zugyelmas::prelude::*;
    /// type Number = FixedI8<4>; // from -8 to 7.9375
    /// let number = Number::from_num::<f64>;
    ///
    /// assert_eq!(number(1.5).overflowing_sub(number(2.25)), (number(-0.75), false));
    /// // -8.0625 does not fit
    /// assert_eq!(Number::MIN.overflowing_sub(Number::DELTA), (Number::MAX, true));
    /// ```
    ///
    /// # Proved
    ///
    /// ```text
    /// ensures { Some (Self.number result.0, result.1) ≡ overflowing Self.SIGNED Self.BITS
    ///     (Some (Self.number self -ℤ Self.number rhs)) }
    /// ```
    ///
    /// Definitions: [`overflowing`].
    ///
    /// [`overflowing`]: crate::definitions::word_policies
    #[must_use]
    fn overflowing_sub(self, rhs: Self) -> (Self, bool);

    /// Returns the product, rounded down and wrapped, and whether the exact result does not fit.
    ///
    /// # Examples
    ///
    /// ```
    /// use zugyelmas::prelude::*;
    /// type Number = FixedI8<4>; // from -8 to 7.9375
    /// let number = Number::from_num::<f64>;
    ///
    /// assert_eq!(number(1.5).overflowing_mul(number(2.25)), (number(3.375), false));
    /// // -0.03125, rounded down
    /// assert_eq!(number(0.5).overflowing_mul(number(-0.0625)), (number(-0.0625), false));
    /// // 8 does not fit
    /// assert_eq!(number(4.0).overflowing_mul(number(2.0)), (Number::MIN, true));
    /// ```
    ///
    /// # Compile errors
    ///
    /// Compiles only if the fraction F is at most the width.
    ///
    /// # Proved
    ///
    /// ```text
    /// requires { Self.FRACTION ≤ Self.BITS }
    /// ensures { Some (Self.number result.0, result.1) ≡ overflowing Self.SIGNED Self.BITS
    ///     (Some (exact_mul (Self.number self) (Self.number rhs) Self.FRACTION)) }
    /// ```
    ///
    /// Definitions: [`overflowing`], [`exact_mul`].
    ///
    /// [`overflowing`]: crate::definitions::word_policies
    /// [`exact_mul`]: crate::definitions::kernel_rows
    #[must_use]
    fn overflowing_mul(self, rhs: Self) -> (Self, bool);

    /// Returns the quotient, rounded toward zero and wrapped, and whether the exact result does not fit.
    /// Precondition: the divisor is not 0.
    ///
    /// # Examples
    ///
    /// ```
    /// use zugyelmas::prelude::*;
    /// type Number = FixedI8<4>; // from -8 to 7.9375
    /// let number = Number::from_num::<f64>;
    ///
    /// assert_eq!(number(3.0).overflowing_div(number(2.0)), (number(1.5), false));
    /// // -1/3, rounded toward zero
    /// assert_eq!(number(-1.0).overflowing_div(number(3.0)), (number(-0.3125), false));
    /// // 8 does not fit
    /// assert_eq!(number(4.0).overflowing_div(number(0.5)), (Number::MIN, true));
    /// ```
    ///
    /// ```should_panic
    /// # use zugyelmas::prelude::*;
    /// # type Number = FixedI8<4>; // from -8 to 7.9375
    /// # let number = Number::from_num::<f64>;
    /// # std::panic::set_hook(Box::new(|_| {}));
    /// number(1.0).overflowing_div(number(0.0)); // the divisor is 0
    /// ```
    ///
    /// # Compile errors
    ///
    /// Compiles only if the fraction F is at most the width.
    ///
    /// # Panics
    ///
    /// Panics unless the divisor is not 0.
    ///
    /// # Proved
    ///
    /// ```text
    /// requires fraction { Self.FRACTION ≤ Self.BITS }
    /// requires divisor { Self.number rhs ≢ pos 0 }
    /// ensures { Some (Self.number result.0, result.1) ≡ overflowing Self.SIGNED Self.BITS
    ///     (Some (exact_div (Self.number self) (Self.number rhs) Self.FRACTION)) }
    /// ```
    ///
    /// Definitions: [`overflowing`], [`exact_div`].
    ///
    /// [`overflowing`]: crate::definitions::word_policies
    /// [`exact_div`]: crate::definitions::kernel_rows
    #[must_use]
    fn overflowing_div(self, rhs: Self) -> (Self, bool);

    /// Returns 1 over the number, rounded toward zero and wrapped, and whether the exact result does not fit.
    /// Precondition: the number is not 0.
    ///
    /// # Examples
    ///
    /// ```
    /// use zugyelmas::prelude::*;
    /// type Number = FixedI8<4>; // from -8 to 7.9375
    /// let number = Number::from_num::<f64>;
    ///
    /// assert_eq!(number(2.0).overflowing_recip(), (number(0.5), false));
    /// // -1/3, rounded toward zero
    /// assert_eq!(number(-3.0).overflowing_recip(), (number(-0.3125), false));
    /// assert_eq!(number(0.125).overflowing_recip(), (Number::MIN, true)); // 8 does not fit
    /// ```
    ///
    /// ```should_panic
    /// # use zugyelmas::prelude::*;
    /// # type Number = FixedI8<4>; // from -8 to 7.9375
    /// # let number = Number::from_num::<f64>;
    /// # std::panic::set_hook(Box::new(|_| {}));
    /// number(0.0).overflowing_recip(); // the divisor is 0
    /// ```
    ///
    /// # Compile errors
    ///
    /// Compiles only if the fraction F is at most the width.
    ///
    /// # Panics
    ///
    /// Panics unless the divisor is not 0.
    ///
    /// # Proved
    ///
    /// ```text
    /// requires fraction { Self.FRACTION ≤ Self.BITS }
    /// requires divisor { Self.number self ≢ pos 0 }
    /// ensures { Some (Self.number result.0, result.1) ≡ overflowing Self.SIGNED Self.BITS
    ///     (Some (exact_recip (Self.number self) Self.FRACTION)) }
    /// ```
    ///
    /// Definitions: [`overflowing`], [`exact_recip`].
    ///
    /// [`overflowing`]: crate::definitions::word_policies
    /// [`exact_recip`]: crate::definitions::kernel_rows
    #[must_use]
    fn overflowing_recip(self) -> (Self, bool);

    /// Returns the Euclidean quotient, which is a whole number, wrapped, and whether the exact result does not fit.
    /// Precondition: the divisor is not 0.
    ///
    /// # Examples
    ///
    /// ```
    /// use zugyelmas::prelude::*;
    /// type Number = FixedI8<4>; // from -8 to 7.9375
    /// let number = Number::from_num::<f64>;
    ///
    /// assert_eq!(number(5.5).overflowing_div_euclid(number(2.0)), (number(2.0), false));
    /// // the remainder is 0.5
    /// assert_eq!(number(-5.5).overflowing_div_euclid(number(2.0)), (number(-3.0), false));
    /// // 15 does not fit
    /// assert_eq!(number(7.5).overflowing_div_euclid(number(0.5)), (number(-1.0), true));
    /// ```
    ///
    /// ```should_panic
    /// # use zugyelmas::prelude::*;
    /// # type Number = FixedI8<4>; // from -8 to 7.9375
    /// # let number = Number::from_num::<f64>;
    /// # std::panic::set_hook(Box::new(|_| {}));
    /// number(5.5).overflowing_div_euclid(number(0.0)); // the divisor is 0
    /// ```
    ///
    /// # Compile errors
    ///
    /// Compiles only if the fraction F is at most the width.
    ///
    /// # Panics
    ///
    /// Panics unless the divisor is not 0.
    ///
    /// # Proved
    ///
    /// ```text
    /// requires fraction { Self.FRACTION ≤ Self.BITS }
    /// requires divisor { Self.number rhs ≢ pos 0 }
    /// ensures { Some (Self.number result.0, result.1) ≡ overflowing Self.SIGNED Self.BITS
    ///     (Some (exact_div_euclid (Self.number self) (Self.number rhs) Self.FRACTION)) }
    /// ```
    ///
    /// Definitions: [`overflowing`], [`exact_div_euclid`].
    ///
    /// [`overflowing`]: crate::definitions::word_policies
    /// [`exact_div_euclid`]: crate::definitions::kernel_rows
    #[must_use]
    fn overflowing_div_euclid(self, rhs: Self) -> (Self, bool);

    /// Returns the distance between the numbers, wrapped, and whether the exact result does not fit.
    ///
    /// # Examples
    ///
    /// ```
    /// use zugyelmas::prelude::*;
    /// type Number = FixedI8<4>; // from -8 to 7.9375
    /// let number = Number::from_num::<f64>;
    ///
    /// assert_eq!(number(1.5).overflowing_dist(number(-2.0)), (number(3.5), false));
    /// // 15.9375 does not fit
    /// assert_eq!(Number::MAX.overflowing_dist(Number::MIN), (number(-0.0625), true));
    /// ```
    ///
    /// # Proved
    ///
    /// ```text
    /// ensures { Some (Self.number result.0, result.1) ≡ overflowing Self.SIGNED Self.BITS
    ///     (Some (exact_abs (Self.number self -ℤ Self.number other))) }
    /// ```
    ///
    /// Definitions: [`overflowing`], [`exact_abs`].
    ///
    /// [`overflowing`]: crate::definitions::word_policies
    /// [`exact_abs`]: crate::definitions::kernel_rows
    #[must_use]
    fn overflowing_dist(self, other: Self) -> (Self, bool);

    /// Returns the next multiple of `other`, upward if `other` is positive and downward if it is negative, wrapped,
    /// and whether the exact result does not fit. Precondition: `other` is not 0.
    ///
    /// # Examples
    ///
    /// ```
    /// use zugyelmas::prelude::*;
    /// type Number = FixedI8<4>; // from -8 to 7.9375
    /// let number = Number::from_num::<f64>;
    ///
    /// assert_eq!(number(2.5).overflowing_next_multiple_of(number(1.0)), (number(3.0), false));
    /// // downward, by the sign of the divisor
    /// assert_eq!(number(2.5).overflowing_next_multiple_of(number(-1.0)), (number(2.0), false));
    /// // 8 does not fit
    /// assert_eq!(number(7.5).overflowing_next_multiple_of(number(1.0)), (Number::MIN, true));
    /// ```
    ///
    /// ```should_panic
    /// # use zugyelmas::prelude::*;
    /// # type Number = FixedI8<4>; // from -8 to 7.9375
    /// # let number = Number::from_num::<f64>;
    /// # std::panic::set_hook(Box::new(|_| {}));
    /// number(2.5).overflowing_next_multiple_of(number(0.0)); // the divisor is 0
    /// ```
    ///
    /// # Panics
    ///
    /// Panics unless the divisor is not 0.
    ///
    /// # Proved
    ///
    /// ```text
    /// requires { Self.number other ≢ pos 0 }
    /// ensures { Some (Self.number result.0, result.1) ≡ overflowing Self.SIGNED Self.BITS
    ///     (Some (exact_next_multiple_of (Self.number self) (Self.number other))) }
    /// ```
    ///
    /// Definitions: [`overflowing`], [`exact_next_multiple_of`].
    ///
    /// [`overflowing`]: crate::definitions::word_policies
    /// [`exact_next_multiple_of`]: crate::definitions::kernel_rows
    #[must_use]
    fn overflowing_next_multiple_of(self, other: Self) -> (Self, bool);

    /// Returns the product by an integer, wrapped, and whether the exact result does not fit.
    ///
    /// # Examples
    ///
    /// ```
    /// use zugyelmas::prelude::*;
    /// type Number = FixedI8<4>; // from -8 to 7.9375
    /// let number = Number::from_num::<f64>;
    ///
    /// assert_eq!(number(1.5).overflowing_mul_int(3), (number(4.5), false));
    /// // 9 does not fit
    /// assert_eq!(number(1.5).overflowing_mul_int(6), (number(-7.0), true));
    /// ```
    ///
    /// # Proved
    ///
    /// ```text
    /// ensures { Some (Self.number result.0, result.1) ≡ overflowing Self.SIGNED Self.BITS
    ///     (Some (Self.number self *ℤ Self.Bits.value rhs)) }
    /// ```
    ///
    /// Definitions: [`overflowing`].
    ///
    /// [`overflowing`]: crate::definitions::word_policies
    #[must_use]
    fn overflowing_mul_int(self, rhs: Self::Bits) -> (Self, bool);

    /// Returns the quotient by an integer, rounded toward zero and wrapped, and whether the exact result does not
    /// fit. Precondition: the divisor is not 0.
    ///
    /// # Examples
    ///
    /// ```
    /// use zugyelmas::prelude::*;
    /// type Number = FixedI8<4>; // from -8 to 7.9375
    /// let number = Number::from_num::<f64>;
    ///
    /// assert_eq!(number(4.5).overflowing_div_int(3), (number(1.5), false));
    /// // -0.03125, rounded toward zero
    /// assert_eq!(number(-0.0625).overflowing_div_int(2), (number(0.0), false));
    /// // 8 does not fit
    /// assert_eq!(Number::MIN.overflowing_div_int(-1), (Number::MIN, true));
    /// ```
    ///
    /// ```should_panic
    /// # use zugyelmas::prelude::*;
    /// # type Number = FixedI8<4>; // from -8 to 7.9375
    /// # let number = Number::from_num::<f64>;
    /// # std::panic::set_hook(Box::new(|_| {}));
    /// number(4.5).overflowing_div_int(0); // the divisor is 0
    /// ```
    ///
    /// # Panics
    ///
    /// Panics unless the divisor is not 0.
    ///
    /// # Proved
    ///
    /// ```text
    /// requires { Self.Bits.value rhs ≢ pos 0 }
    /// ensures { Some (Self.number result.0, result.1) ≡ overflowing Self.SIGNED Self.BITS
    ///     (Some (truncated_quotient (Self.number self) (Self.Bits.value rhs))) }
    /// ```
    ///
    /// Definitions: [`overflowing`], [`truncated_quotient`].
    ///
    /// [`overflowing`]: crate::definitions::word_policies
    /// [`truncated_quotient`]: crate::definitions::word_quotient
    #[must_use]
    fn overflowing_div_int(self, rhs: Self::Bits) -> (Self, bool);

    /// Returns the Euclidean remainder by an integer, wrapped, and whether the exact result does not fit.
    /// Precondition: the divisor is not 0.
    ///
    /// # Examples
    ///
    /// ```
    /// use zugyelmas::prelude::*;
    /// type Number = FixedI8<4>; // from -8 to 7.9375
    /// let number = Number::from_num::<f64>;
    ///
    /// assert_eq!(number(5.5).overflowing_rem_euclid_int(2), (number(1.5), false));
    /// // never below 0
    /// assert_eq!(number(-5.5).overflowing_rem_euclid_int(2), (number(0.5), false));
    /// // 8.9375 does not fit
    /// assert_eq!(number(-0.0625).overflowing_rem_euclid_int(9), (number(-7.0625), true));
    /// ```
    ///
    /// ```should_panic
    /// # use zugyelmas::prelude::*;
    /// # type Number = FixedI8<4>; // from -8 to 7.9375
    /// # let number = Number::from_num::<f64>;
    /// # std::panic::set_hook(Box::new(|_| {}));
    /// number(5.5).overflowing_rem_euclid_int(0); // the divisor is 0
    /// ```
    ///
    /// # Compile errors
    ///
    /// Compiles only if the fraction F is at most the width.
    ///
    /// # Panics
    ///
    /// Panics unless the divisor is not 0.
    ///
    /// # Proved
    ///
    /// ```text
    /// requires fraction { Self.FRACTION ≤ Self.BITS }
    /// requires divisor { Self.Bits.value rhs ≢ pos 0 }
    /// ensures { Some (Self.number result.0, result.1) ≡ overflowing Self.SIGNED Self.BITS
    ///     (Some (euclidean_remainder (Self.number self) (units (Self.Bits.value rhs) Self.FRACTION))) }
    /// ```
    ///
    /// Definitions: [`overflowing`], [`euclidean_remainder`], [`units`].
    ///
    /// [`overflowing`]: crate::definitions::word_policies
    /// [`euclidean_remainder`]: crate::definitions::word_quotient
    /// [`units`]: crate::definitions::kernel_rows
    #[must_use]
    fn overflowing_rem_euclid_int(self, rhs: Self::Bits) -> (Self, bool);

    /// Returns the Euclidean quotient by an integer, which is a whole number, wrapped, and whether the exact result
    /// does not fit. Precondition: the divisor is not 0.
    ///
    /// # Examples
    ///
    /// ```
    /// use zugyelmas::prelude::*;
    /// type Number = FixedI8<4>; // from -8 to 7.9375
    /// let number = Number::from_num::<f64>;
    ///
    /// assert_eq!(number(5.5).overflowing_div_euclid_int(2), (number(2.0), false));
    /// // the remainder is 0.5
    /// assert_eq!(number(-5.5).overflowing_div_euclid_int(2), (number(-3.0), false));
    /// // 8 does not fit
    /// assert_eq!(Number::MIN.overflowing_div_euclid_int(-1), (Number::MIN, true));
    /// ```
    ///
    /// ```should_panic
    /// # use zugyelmas::prelude::*;
    /// # type Number = FixedI8<4>; // from -8 to 7.9375
    /// # let number = Number::from_num::<f64>;
    /// # std::panic::set_hook(Box::new(|_| {}));
    /// number(5.5).overflowing_div_euclid_int(0); // the divisor is 0
    /// ```
    ///
    /// # Compile errors
    ///
    /// Compiles only if the fraction F is at most the width.
    ///
    /// # Panics
    ///
    /// Panics unless the divisor is not 0.
    ///
    /// # Proved
    ///
    /// ```text
    /// requires fraction { Self.FRACTION ≤ Self.BITS }
    /// requires divisor { Self.Bits.value rhs ≢ pos 0 }
    /// ensures { Some (Self.number result.0, result.1) ≡ overflowing Self.SIGNED Self.BITS
    ///     (Some (exact_div_euclid (Self.number self) (units (Self.Bits.value rhs) Self.FRACTION) Self.FRACTION)) }
    /// ```
    ///
    /// Definitions: [`overflowing`], [`exact_div_euclid`], [`units`].
    ///
    /// [`overflowing`]: crate::definitions::word_policies
    /// [`exact_div_euclid`]: crate::definitions::kernel_rows
    /// [`units`]: crate::definitions::kernel_rows
    #[must_use]
    fn overflowing_div_euclid_int(self, rhs: Self::Bits) -> (Self, bool);

    /// Returns the square root, rounded down and wrapped, and whether the exact result does not fit. Precondition:
    /// the number is not negative.
    ///
    /// # Examples
    ///
    /// ```
    /// use zugyelmas::prelude::*;
    /// type Number = FixedI8<4>; // from -8 to 7.9375
    /// let number = Number::from_num::<f64>;
    ///
    /// assert_eq!(number(2.25).overflowing_sqrt(), (number(1.5), false));
    /// // 1.414.., rounded down
    /// assert_eq!(number(2.0).overflowing_sqrt(), (number(1.375), false));
    /// // the root of 0.25 does not fit
    /// assert_eq!(FixedI8::<8>::from_bits(64).overflowing_sqrt(), (FixedI8::MIN, true));
    /// ```
    ///
    /// ```should_panic
    /// # use zugyelmas::prelude::*;
    /// # type Number = FixedI8<4>; // from -8 to 7.9375
    /// # let number = Number::from_num::<f64>;
    /// # std::panic::set_hook(Box::new(|_| {}));
    /// number(-1.0).overflowing_sqrt(); // no root
    /// ```
    ///
    /// # Compile errors
    ///
    /// Compiles only if the fraction F is at most the width.
    ///
    /// # Panics
    ///
    /// Panics unless the number is not below 0.
    ///
    /// # Proved
    ///
    /// ```text
    /// requires fraction { Self.FRACTION ≤ Self.BITS }
    /// requires sign { pos 0 ≤ℤ Self.number self }
    /// ensures { Some (Self.number result.0, result.1) ≡ overflowing Self.SIGNED Self.BITS
    ///     (Some (root_of (Self.number self) Self.FRACTION)) }
    /// ```
    ///
    /// Definitions: [`overflowing`], [`root_of`].
    ///
    /// [`overflowing`]: crate::definitions::word_policies
    /// [`root_of`]: crate::definitions::root_root
    #[must_use]
    fn overflowing_sqrt(self) -> (Self, bool);

    /// Returns the bits shifted left by `rhs` modulo the width; bits shifted out are lost. Also returns whether `rhs`
    /// is the width or more.
    ///
    /// # Examples
    ///
    /// ```
    /// use zugyelmas::prelude::*;
    /// type Number = FixedI8<4>; // from -8 to 7.9375
    /// let number = Number::from_num::<f64>;
    ///
    /// assert_eq!(number(1.5).overflowing_shl(2), (number(6.0), false));
    /// // 12 without the bits past the width
    /// assert_eq!(number(1.5).overflowing_shl(3), (number(-4.0), false));
    /// // the shift is not below 8
    /// assert_eq!(number(1.5).overflowing_shl(9), (number(3.0), true));
    /// ```
    ///
    /// # Proved
    ///
    /// ```text
    /// ensures value { Self.number result.0
    ///     ≡ wrap Self.SIGNED Self.BITS (Self.number self *ℤ pos (2 ^ (rhs % Self.BITS))) }
    /// ensures verdict { IsTrue result.1 ↔ (Self.BITS ≤ rhs) }
    /// ```
    ///
    /// Definitions: [`wrap`].
    ///
    /// [`wrap`]: crate::definitions::word_format
    #[must_use]
    fn overflowing_shl(self, rhs: u32) -> (Self, bool);

    /// Returns the bits shifted right by `rhs` modulo the width, rounded down. Also returns whether `rhs` is the
    /// width or more.
    ///
    /// # Examples
    ///
    /// ```
    /// use zugyelmas::prelude::*;
    /// type Number = FixedI8<4>; // from -8 to 7.9375
    /// let number = Number::from_num::<f64>;
    ///
    /// assert_eq!(number(1.5).overflowing_shr(1), (number(0.75), false));
    /// // -0.03125, rounded down
    /// assert_eq!(number(-0.0625).overflowing_shr(1), (number(-0.0625), false));
    /// // the shift is not below 8
    /// assert_eq!(number(1.5).overflowing_shr(9), (number(0.75), true));
    /// ```
    ///
    /// # Proved
    ///
    /// ```text
    /// ensures value { Self.number result.0
    ///     ≡ floor_quotient (Self.number self) (2 ^ (rhs % Self.BITS)) }
    /// ensures verdict { IsTrue result.1 ↔ (Self.BITS ≤ rhs) }
    /// ```
    ///
    /// Definitions: [`floor_quotient`].
    ///
    /// [`floor_quotient`]: crate::definitions::word_quotient
    #[must_use]
    fn overflowing_shr(self, rhs: u32) -> (Self, bool);
}

impl<T: Word, const F: u32> Overflowing for Fixed<T, F> {
    fn overflowing_neg(self) -> (Self, bool) {
        overflowing_number(neg_of(self.bits))
    }

    fn overflowing_add(self, rhs: Self) -> (Self, bool) {
        overflowing_number(add_of(self.bits, rhs.bits))
    }

    fn overflowing_sub(self, rhs: Self) -> (Self, bool) {
        overflowing_number(sub_of(self.bits, rhs.bits))
    }

    #[track_caller]
    fn overflowing_mul(self, rhs: Self) -> (Self, bool) {
        const {
            assert!(
                F <= T::BITS,
                "precondition: the fraction F is at most the width"
            )
        };
        overflowing_number(mul_of(self.bits, rhs.bits, F))
    }

    #[track_caller]
    fn overflowing_div(self, rhs: Self) -> (Self, bool) {
        const {
            assert!(
                F <= T::BITS,
                "precondition: the fraction F is at most the width"
            )
        };
        assert!(rhs.bits != T::ZERO, "precondition: the divisor is not 0");
        overflowing_number(div_of(self.bits, rhs.bits, F))
    }

    #[track_caller]
    fn overflowing_recip(self) -> (Self, bool) {
        const {
            assert!(
                F <= T::BITS,
                "precondition: the fraction F is at most the width"
            )
        };
        assert!(self.bits != T::ZERO, "precondition: the divisor is not 0");
        overflowing_number(recip_of(self.bits, F))
    }

    #[track_caller]
    fn overflowing_div_euclid(self, rhs: Self) -> (Self, bool) {
        const {
            assert!(
                F <= T::BITS,
                "precondition: the fraction F is at most the width"
            )
        };
        assert!(rhs.bits != T::ZERO, "precondition: the divisor is not 0");
        overflowing_number(div_euclid_of(self.bits, rhs.bits, F))
    }

    fn overflowing_dist(self, other: Self) -> (Self, bool) {
        overflowing_number(dist_of(self.bits, other.bits))
    }

    #[track_caller]
    fn overflowing_next_multiple_of(self, other: Self) -> (Self, bool) {
        assert!(other.bits != T::ZERO, "precondition: the divisor is not 0");
        overflowing_number(next_multiple_of_of(self.bits, other.bits))
    }

    fn overflowing_mul_int(self, rhs: T) -> (Self, bool) {
        overflowing_number(mul_int_of(self.bits, rhs))
    }

    #[track_caller]
    fn overflowing_div_int(self, rhs: T) -> (Self, bool) {
        assert!(rhs != T::ZERO, "precondition: the divisor is not 0");
        overflowing_number(div_int_of(self.bits, rhs))
    }

    #[track_caller]
    fn overflowing_rem_euclid_int(self, rhs: T) -> (Self, bool) {
        const {
            assert!(
                F <= T::BITS,
                "precondition: the fraction F is at most the width"
            )
        };
        assert!(rhs != T::ZERO, "precondition: the divisor is not 0");
        overflowing_number(rem_euclid_int_of(self.bits, rhs, F))
    }

    #[track_caller]
    fn overflowing_div_euclid_int(self, rhs: T) -> (Self, bool) {
        const {
            assert!(
                F <= T::BITS,
                "precondition: the fraction F is at most the width"
            )
        };
        assert!(rhs != T::ZERO, "precondition: the divisor is not 0");
        overflowing_number(div_euclid_int_of(self.bits, rhs, F))
    }

    #[track_caller]
    fn overflowing_sqrt(self) -> (Self, bool) {
        const {
            assert!(
                F <= T::BITS,
                "precondition: the fraction F is at most the width"
            )
        };
        assert!(
            !self.bits.is_below_zero(),
            "precondition: the number is not below 0"
        );
        overflowing_number(sqrt_of(self.bits, F))
    }

    fn overflowing_shl(self, rhs: u32) -> (Self, bool) {
        (self.unbounded_shl(rhs % T::BITS), rhs >= T::BITS)
    }

    fn overflowing_shr(self, rhs: u32) -> (Self, bool) {
        (self.unbounded_shr(rhs % T::BITS), rhs >= T::BITS)
    }
}

/// The `overflowing_` forms of signed numbers.
pub trait OverflowingSigned: Overflowing {
    /// Returns the magnitude, wrapped, and whether the exact result does not fit.
    ///
    /// # Examples
    ///
    /// ```
    /// use zugyelmas::prelude::*;
    /// type Number = FixedI8<4>; // from -8 to 7.9375
    /// let number = Number::from_num::<f64>;
    ///
    /// assert_eq!(number(-1.5).overflowing_abs(), (number(1.5), false));
    /// assert_eq!(Number::MIN.overflowing_abs(), (Number::MIN, true)); // 8 does not fit
    /// ```
    ///
    /// # Proved
    ///
    /// ```text
    /// ensures { Some (Self.number result.0, result.1)
    ///     ≡ overflowing Self.SIGNED Self.BITS (Some (exact_abs (Self.number self))) }
    /// ```
    ///
    /// Definitions: [`overflowing`], [`exact_abs`].
    ///
    /// [`overflowing`]: crate::definitions::word_policies
    /// [`exact_abs`]: crate::definitions::kernel_rows
    #[must_use]
    fn overflowing_abs(self) -> (Self, bool);

    /// Returns the sign as a number: 1, 0 or -1, wrapped, and whether the exact result does not fit.
    ///
    /// # Examples
    ///
    /// ```
    /// use zugyelmas::prelude::*;
    /// type Number = FixedI8<4>; // from -8 to 7.9375
    /// let number = Number::from_num::<f64>;
    ///
    /// assert_eq!(number(-2.5).overflowing_signum(), (number(-1.0), false));
    /// assert_eq!(number(0.0).overflowing_signum(), (number(0.0), false));
    /// // 1 does not fit
    /// assert_eq!(FixedI8::<7>::from_bits(64).overflowing_signum(), (FixedI8::MIN, true));
    /// ```
    ///
    /// # Compile errors
    ///
    /// Compiles only if the fraction F is at most the width.
    ///
    /// # Proved
    ///
    /// ```text
    /// requires { Self.FRACTION ≤ Self.BITS }
    /// ensures { Some (Self.number result.0, result.1) ≡ overflowing Self.SIGNED Self.BITS
    ///     (Some (exact_signum (Self.number self) Self.FRACTION)) }
    /// ```
    ///
    /// Definitions: [`overflowing`], [`exact_signum`].
    ///
    /// [`overflowing`]: crate::definitions::word_policies
    /// [`exact_signum`]: crate::definitions::kernel_rows
    #[must_use]
    fn overflowing_signum(self) -> (Self, bool);

    /// Returns the sum with an unsigned number, wrapped, and whether the exact result does not fit.
    ///
    /// # Examples
    ///
    /// ```
    /// use zugyelmas::prelude::*;
    /// let number = FixedI8::<4>::from_num::<f64>; // from -8 to 7.9375
    /// let unsigned = FixedU8::<4>::from_num::<f64>; // from 0 to 15.9375
    ///
    /// assert_eq!(number(-1.5).overflowing_add_unsigned(unsigned(9.0)), (number(7.5), false));
    /// // 10.5 does not fit
    /// assert_eq!(number(1.5).overflowing_add_unsigned(unsigned(9.0)), (number(-5.5), true));
    /// ```
    ///
    /// # Proved
    ///
    /// ```text
    /// ensures { Some (Self.number result.0, result.1) ≡ overflowing Self.SIGNED Self.BITS
    ///     (Some (Self.number self +ℤ Self.Unsigned.number rhs)) }
    /// ```
    ///
    /// Definitions: [`overflowing`].
    ///
    /// [`overflowing`]: crate::definitions::word_policies
    #[must_use]
    fn overflowing_add_unsigned(self, rhs: Self::Unsigned) -> (Self, bool);

    /// Returns the number minus an unsigned number, wrapped, and whether the exact result does not fit.
    ///
    /// # Examples
    ///
    /// ```
    /// use zugyelmas::prelude::*;
    /// let number = FixedI8::<4>::from_num::<f64>; // from -8 to 7.9375
    /// let unsigned = FixedU8::<4>::from_num::<f64>; // from 0 to 15.9375
    ///
    /// assert_eq!(number(1.5).overflowing_sub_unsigned(unsigned(9.0)), (number(-7.5), false));
    /// // -10.5 does not fit
    /// assert_eq!(number(-1.5).overflowing_sub_unsigned(unsigned(9.0)), (number(5.5), true));
    /// ```
    ///
    /// # Proved
    ///
    /// ```text
    /// ensures { Some (Self.number result.0, result.1) ≡ overflowing Self.SIGNED Self.BITS
    ///     (Some (Self.number self -ℤ Self.Unsigned.number rhs)) }
    /// ```
    ///
    /// Definitions: [`overflowing`].
    ///
    /// [`overflowing`]: crate::definitions::word_policies
    #[must_use]
    fn overflowing_sub_unsigned(self, rhs: Self::Unsigned) -> (Self, bool);
}

impl<T: SignedWord, const F: u32> OverflowingSigned for Fixed<T, F> {
    fn overflowing_abs(self) -> (Self, bool) {
        overflowing_number(abs_of(self.bits))
    }

    #[track_caller]
    fn overflowing_signum(self) -> (Self, bool) {
        const {
            assert!(
                F <= T::BITS,
                "precondition: the fraction F is at most the width"
            )
        };
        overflowing_number(signum_of(self.bits, F))
    }

    fn overflowing_add_unsigned(self, rhs: Fixed<T::Unsigned, F>) -> (Self, bool) {
        overflowing_number(mixed_add_of(self.bits, rhs.bits))
    }

    fn overflowing_sub_unsigned(self, rhs: Fixed<T::Unsigned, F>) -> (Self, bool) {
        overflowing_number(mixed_sub_of(self.bits, rhs.bits))
    }
}

/// The `overflowing_` forms of unsigned numbers.
pub trait OverflowingUnsigned: Overflowing {
    /// Returns the sum with a signed number, wrapped, and whether the exact result does not fit.
    ///
    /// # Examples
    ///
    /// ```
    /// use zugyelmas::prelude::*;
    /// let number = FixedI8::<4>::from_num::<f64>; // from -8 to 7.9375
    /// let unsigned = FixedU8::<4>::from_num::<f64>; // from 0 to 15.9375
    ///
    /// assert_eq!(unsigned(9.0).overflowing_add_signed(number(-1.5)), (unsigned(7.5), false));
    /// // -0.5 does not fit
    /// assert_eq!(unsigned(1.5).overflowing_add_signed(number(-2.0)), (unsigned(15.5), true));
    /// ```
    ///
    /// # Proved
    ///
    /// ```text
    /// ensures { Some (Self.number result.0, result.1) ≡ overflowing Self.SIGNED Self.BITS
    ///     (Some (Self.number self +ℤ Self.Signed.number rhs)) }
    /// ```
    ///
    /// Definitions: [`overflowing`].
    ///
    /// [`overflowing`]: crate::definitions::word_policies
    #[must_use]
    fn overflowing_add_signed(self, rhs: Self::Signed) -> (Self, bool);

    /// Returns the number minus a signed number, wrapped, and whether the exact result does not fit.
    ///
    /// # Examples
    ///
    /// ```
    /// use zugyelmas::prelude::*;
    /// let number = FixedI8::<4>::from_num::<f64>; // from -8 to 7.9375
    /// let unsigned = FixedU8::<4>::from_num::<f64>; // from 0 to 15.9375
    ///
    /// assert_eq!(unsigned(9.0).overflowing_sub_signed(number(-1.5)), (unsigned(10.5), false));
    /// // -0.5 does not fit
    /// assert_eq!(unsigned(1.5).overflowing_sub_signed(number(2.0)), (unsigned(15.5), true));
    /// ```
    ///
    /// # Proved
    ///
    /// ```text
    /// ensures { Some (Self.number result.0, result.1) ≡ overflowing Self.SIGNED Self.BITS
    ///     (Some (Self.number self -ℤ Self.Signed.number rhs)) }
    /// ```
    ///
    /// Definitions: [`overflowing`].
    ///
    /// [`overflowing`]: crate::definitions::word_policies
    #[must_use]
    fn overflowing_sub_signed(self, rhs: Self::Signed) -> (Self, bool);
}

impl<T: UnsignedWord, const F: u32> OverflowingUnsigned for Fixed<T, F> {
    fn overflowing_add_signed(self, rhs: Fixed<T::Signed, F>) -> (Self, bool) {
        overflowing_number(mixed_add_of(self.bits, rhs.bits))
    }

    fn overflowing_sub_signed(self, rhs: Fixed<T::Signed, F>) -> (Self, bool) {
        overflowing_number(mixed_sub_of(self.bits, rhs.bits))
    }
}
