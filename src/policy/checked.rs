// Made by `make package` of crates/fixed_policy/src/checked.rt, which is proved: changes go there.

//! Operations that return `None` if the exact result does not fit.

use crate::kernel::{
    abs_of, add_of, dist_of, div_euclid_int_of, div_euclid_of, div_int_of, div_of, mixed_add_of,
    mixed_sub_of, mul_int_of, mul_of, neg_of, next_multiple_of_of, next_power_of_two_of, recip_of,
    rem_euclid_int_of, rem_euclid_of, rem_int_of, rem_of, signum_of, sqrt_of, sub_of,
};
use crate::num::{Fixed, Held, Number, checked_number};
use crate::word::{RawWord, SignedWord, UnsignedWord, Word};

/// The `checked_` forms of all numbers. If the exact result does not fit, they return `None`. Results are in units of
/// `2^-F`, and integer operands are whole numbers. Precondition of each call that uses F: F is at most the width.
pub trait Checked: Number {
    /// Returns the negated number, or `None` if it does not fit.
    ///
    /// # Examples
    ///
    /// ```
    /// use zugyelmas::prelude::*;
    /// type Number = FixedI8<4>; // from -8 to 7.9375
    /// let number = Number::from_num::<f64>;
    ///
    /// assert_eq!(number(1.5).checked_neg(), Some(number(-1.5)));
    /// assert_eq!(Number::MIN.checked_neg(), None); // 8 does not fit
    /// ```
    ///
    /// # Proved
    ///
    /// ```text
    /// ensures { option_map Self.number result
    ///     ≡ checked Self.SIGNED Self.BITS (Some (neg_ℤ (Self.number self))) }
    /// ```
    ///
    /// Definitions: [`checked`].
    ///
    /// [`checked`]: crate::definitions::word_policies
    #[must_use]
    fn checked_neg(self) -> Option<Self>;

    /// Returns the sum, or `None` if it does not fit.
    ///
    /// # Examples
    ///
    /// ```
    /// use zugyelmas::prelude::*;
    /// type Number = FixedI8<4>; // from -8 to 7.9375
    /// let number = Number::from_num::<f64>;
    ///
    /// assert_eq!(number(1.5).checked_add(number(2.25)), Some(number(3.75)));
    /// assert_eq!(Number::MAX.checked_add(Number::DELTA), None); // 8 does not fit
    /// ```
    ///
    /// # Proved
    ///
    /// ```text
    /// ensures { option_map Self.number result ≡ checked Self.SIGNED Self.BITS
    ///     (Some (Self.number self +ℤ Self.number rhs)) }
    /// ```
    ///
    /// Definitions: [`checked`].
    ///
    /// [`checked`]: crate::definitions::word_policies
    #[must_use]
    fn checked_add(self, rhs: Self) -> Option<Self>;

    /// Returns the difference, or `None` if it does not fit.
    ///
    /// # Examples
    ///
    /// ```
    /// use zugyelmas::prelude::*;
    /// type Number = FixedI8<4>; // from -8 to 7.9375
    /// let number = Number::from_num::<f64>;
    ///
    /// assert_eq!(number(1.5).checked_sub(number(2.25)), Some(number(-0.75)));
    /// assert_eq!(Number::MIN.checked_sub(Number::DELTA), None); // -8.0625 does not fit
    /// ```
    ///
    /// # Proved
    ///
    /// ```text
    /// ensures { option_map Self.number result ≡ checked Self.SIGNED Self.BITS
    ///     (Some (Self.number self -ℤ Self.number rhs)) }
    /// ```
    ///
    /// Definitions: [`checked`].
    ///
    /// [`checked`]: crate::definitions::word_policies
    #[must_use]
    fn checked_sub(self, rhs: Self) -> Option<Self>;

    /// Returns the product, rounded down, or `None` if it does not fit.
    ///
    /// # Examples
    ///
    /// ```
    /// use zugyelmas::prelude::*;
    /// type Number = FixedI8<4>; // from -8 to 7.9375
    /// let number = Number::from_num::<f64>;
    ///
    /// assert_eq!(number(1.5).checked_mul(number(2.25)), Some(number(3.375)));
    /// // -0.03125, rounded down
    /// assert_eq!(number(0.5).checked_mul(number(-0.0625)), Some(number(-0.0625)));
    /// assert_eq!(number(4.0).checked_mul(number(2.0)), None); // 8 does not fit
    /// ```
    ///
    /// # Compile errors
    ///
    /// Compiles only if the fraction F is at most the width.
    ///
    /// # Proved
    ///
    /// ```text
    /// requires { Self.FRACTION ≤ Self.BITS }
    /// ensures { option_map Self.number result ≡ checked Self.SIGNED Self.BITS
    ///     (Some (exact_mul (Self.number self) (Self.number rhs) Self.FRACTION)) }
    /// ```
    ///
    /// Definitions: [`checked`], [`exact_mul`].
    ///
    /// [`checked`]: crate::definitions::word_policies
    /// [`exact_mul`]: crate::definitions::kernel_rows
    #[must_use]
    fn checked_mul(self, rhs: Self) -> Option<Self>;

    /// Returns the quotient, rounded toward zero, or `None` if the divisor is 0 or the result does not fit.
    ///
    /// # Examples
    ///
    /// ```
    /// use zugyelmas::prelude::*;
    /// type Number = FixedI8<4>; // from -8 to 7.9375
    /// let number = Number::from_num::<f64>;
    ///
    /// assert_eq!(number(3.0).checked_div(number(2.0)), Some(number(1.5)));
    /// // -1/3, rounded toward zero
    /// assert_eq!(number(-1.0).checked_div(number(3.0)), Some(number(-0.3125)));
    /// assert_eq!(number(4.0).checked_div(number(0.5)), None); // 8 does not fit
    /// assert_eq!(number(1.0).checked_div(number(0.0)), None); // the divisor is 0
    /// ```
    ///
    /// # Compile errors
    ///
    /// Compiles only if the fraction F is at most the width.
    ///
    /// # Proved
    ///
    /// ```text
    /// requires { Self.FRACTION ≤ Self.BITS }
    /// ensures { option_map Self.number result ≡ checked Self.SIGNED Self.BITS
    ///     (by_divisor (Self.number rhs) (exact_div (Self.number self) (Self.number rhs) Self.FRACTION)) }
    /// ```
    ///
    /// Definitions: [`checked`], [`by_divisor`], [`exact_div`].
    ///
    /// [`checked`]: crate::definitions::word_policies
    /// [`by_divisor`]: crate::definitions::kernel_rows
    /// [`exact_div`]: crate::definitions::kernel_rows
    #[must_use]
    fn checked_div(self, rhs: Self) -> Option<Self>;

    /// Returns 1 over the number, rounded toward zero, or `None` if the number is 0 or the result does not fit.
    ///
    /// # Examples
    ///
    /// ```
    /// use zugyelmas::prelude::*;
    /// type Number = FixedI8<4>; // from -8 to 7.9375
    /// let number = Number::from_num::<f64>;
    ///
    /// assert_eq!(number(2.0).checked_recip(), Some(number(0.5)));
    /// // -1/3, rounded toward zero
    /// assert_eq!(number(-3.0).checked_recip(), Some(number(-0.3125)));
    /// assert_eq!(number(0.125).checked_recip(), None); // 8 does not fit
    /// assert_eq!(number(0.0).checked_recip(), None); // the divisor is 0
    /// ```
    ///
    /// # Compile errors
    ///
    /// Compiles only if the fraction F is at most the width.
    ///
    /// # Proved
    ///
    /// ```text
    /// requires { Self.FRACTION ≤ Self.BITS }
    /// ensures { option_map Self.number result ≡ checked Self.SIGNED Self.BITS
    ///     (by_divisor (Self.number self) (exact_recip (Self.number self) Self.FRACTION)) }
    /// ```
    ///
    /// Definitions: [`checked`], [`by_divisor`], [`exact_recip`].
    ///
    /// [`checked`]: crate::definitions::word_policies
    /// [`by_divisor`]: crate::definitions::kernel_rows
    /// [`exact_recip`]: crate::definitions::kernel_rows
    #[must_use]
    fn checked_recip(self) -> Option<Self>;

    /// Returns the remainder of the quotient that is rounded toward zero, or `None` if the divisor is 0. The
    /// remainder always fits.
    ///
    /// # Examples
    ///
    /// ```
    /// use zugyelmas::prelude::*;
    /// type Number = FixedI8<4>; // from -8 to 7.9375
    /// let number = Number::from_num::<f64>;
    ///
    /// assert_eq!(number(5.5).checked_rem(number(2.0)), Some(number(1.5)));
    /// // the sign of the dividend
    /// assert_eq!(number(-5.5).checked_rem(number(2.0)), Some(number(-1.5)));
    /// assert_eq!(number(5.5).checked_rem(number(0.0)), None); // the divisor is 0
    /// ```
    ///
    /// # Proved
    ///
    /// ```text
    /// ensures { option_map Self.number result ≡ checked Self.SIGNED Self.BITS
    ///     (by_divisor (Self.number rhs) (exact_rem (Self.number self) (Self.number rhs))) }
    /// ```
    ///
    /// Definitions: [`checked`], [`by_divisor`], [`exact_rem`].
    ///
    /// [`checked`]: crate::definitions::word_policies
    /// [`by_divisor`]: crate::definitions::kernel_rows
    /// [`exact_rem`]: crate::definitions::kernel_rows
    #[must_use]
    fn checked_rem(self, rhs: Self) -> Option<Self>;

    /// Returns the Euclidean remainder, which is at least 0, or `None` if the divisor is 0. The remainder always
    /// fits.
    ///
    /// # Examples
    ///
    /// ```
    /// use zugyelmas::prelude::*;
    /// type Number = FixedI8<4>; // from -8 to 7.9375
    /// let number = Number::from_num::<f64>;
    ///
    /// assert_eq!(number(5.5).checked_rem_euclid(number(2.0)), Some(number(1.5)));
    /// // never below 0
    /// assert_eq!(number(-5.5).checked_rem_euclid(number(2.0)), Some(number(0.5)));
    /// assert_eq!(number(5.5).checked_rem_euclid(number(0.0)), None); // the divisor is 0
    /// ```
    ///
    /// # Proved
    ///
    /// ```text
    /// ensures { option_map Self.number result ≡ checked Self.SIGNED Self.BITS
    ///     (by_divisor (Self.number rhs) (euclidean_remainder (Self.number self) (Self.number rhs))) }
    /// ```
    ///
    /// Definitions: [`checked`], [`euclidean_remainder`], [`by_divisor`].
    ///
    /// [`checked`]: crate::definitions::word_policies
    /// [`euclidean_remainder`]: crate::definitions::word_quotient
    /// [`by_divisor`]: crate::definitions::kernel_rows
    #[must_use]
    fn checked_rem_euclid(self, rhs: Self) -> Option<Self>;

    /// Returns the Euclidean quotient, which is a whole number, or `None` if the divisor is 0 or the result does not
    /// fit.
    ///
    /// # Examples
    ///
    /// ```
    /// use zugyelmas::prelude::*;
    /// type Number = FixedI8<4>; // from -8 to 7.9375
    /// let number = Number::from_num::<f64>;
    ///
    /// assert_eq!(number(5.5).checked_div_euclid(number(2.0)), Some(number(2.0)));
    /// // the remainder is 0.5
    /// assert_eq!(number(-5.5).checked_div_euclid(number(2.0)), Some(number(-3.0)));
    /// assert_eq!(number(7.5).checked_div_euclid(number(0.5)), None); // 15 does not fit
    /// assert_eq!(number(5.5).checked_div_euclid(number(0.0)), None); // the divisor is 0
    /// ```
    ///
    /// # Compile errors
    ///
    /// Compiles only if the fraction F is at most the width.
    ///
    /// # Proved
    ///
    /// ```text
    /// requires { Self.FRACTION ≤ Self.BITS }
    /// ensures { option_map Self.number result ≡ checked Self.SIGNED Self.BITS
    ///     (by_divisor (Self.number rhs)
    ///     (exact_div_euclid (Self.number self) (Self.number rhs) Self.FRACTION)) }
    /// ```
    ///
    /// Definitions: [`checked`], [`by_divisor`], [`exact_div_euclid`].
    ///
    /// [`checked`]: crate::definitions::word_policies
    /// [`by_divisor`]: crate::definitions::kernel_rows
    /// [`exact_div_euclid`]: crate::definitions::kernel_rows
    #[must_use]
    fn checked_div_euclid(self, rhs: Self) -> Option<Self>;

    /// Returns the distance between the numbers, or `None` if it does not fit.
    ///
    /// # Examples
    ///
    /// ```
    /// use zugyelmas::prelude::*;
    /// type Number = FixedI8<4>; // from -8 to 7.9375
    /// let number = Number::from_num::<f64>;
    ///
    /// assert_eq!(number(1.5).checked_dist(number(-2.0)), Some(number(3.5)));
    /// assert_eq!(Number::MAX.checked_dist(Number::MIN), None); // 15.9375 does not fit
    /// ```
    ///
    /// # Proved
    ///
    /// ```text
    /// ensures { option_map Self.number result ≡ checked Self.SIGNED Self.BITS
    ///     (Some (exact_abs (Self.number self -ℤ Self.number other))) }
    /// ```
    ///
    /// Definitions: [`checked`], [`exact_abs`].
    ///
    /// [`checked`]: crate::definitions::word_policies
    /// [`exact_abs`]: crate::definitions::kernel_rows
    #[must_use]
    fn checked_dist(self, other: Self) -> Option<Self>;

    /// Returns the next multiple of `other`, upward if `other` is positive and downward if it is negative, or `None`
    /// if `other` is 0 or the result does not fit.
    ///
    /// # Examples
    ///
    /// ```
    /// use zugyelmas::prelude::*;
    /// type Number = FixedI8<4>; // from -8 to 7.9375
    /// let number = Number::from_num::<f64>;
    ///
    /// assert_eq!(number(2.5).checked_next_multiple_of(number(1.0)), Some(number(3.0)));
    /// // downward, by the sign of the divisor
    /// assert_eq!(number(2.5).checked_next_multiple_of(number(-1.0)), Some(number(2.0)));
    /// // 8 does not fit
    /// assert_eq!(number(7.5).checked_next_multiple_of(number(1.0)), None);
    /// // the divisor is 0
    /// assert_eq!(number(2.5).checked_next_multiple_of(number(0.0)), None);
    /// ```
    ///
    /// # Proved
    ///
    /// ```text
    /// ensures { option_map Self.number result ≡ checked Self.SIGNED Self.BITS
    ///     (by_divisor (Self.number other) (exact_next_multiple_of (Self.number self) (Self.number other))) }
    /// ```
    ///
    /// Definitions: [`checked`], [`by_divisor`], [`exact_next_multiple_of`].
    ///
    /// [`checked`]: crate::definitions::word_policies
    /// [`by_divisor`]: crate::definitions::kernel_rows
    /// [`exact_next_multiple_of`]: crate::definitions::kernel_rows
    #[must_use]
    fn checked_next_multiple_of(self, other: Self) -> Option<Self>;

    /// Returns the product by an integer, or `None` if it does not fit.
    ///
    /// # Examples
    ///
    /// ```
    /// use zugyelmas::prelude::*;
    /// type Number = FixedI8<4>; // from -8 to 7.9375
    /// let number = Number::from_num::<f64>;
    ///
    /// assert_eq!(number(1.5).checked_mul_int(3), Some(number(4.5)));
    /// assert_eq!(number(1.5).checked_mul_int(6), None); // 9 does not fit
    /// ```
    ///
    /// # Proved
    ///
    /// ```text
    /// ensures { option_map Self.number result ≡ checked Self.SIGNED Self.BITS
    ///     (Some (Self.number self *ℤ Self.Bits.value rhs)) }
    /// ```
    ///
    /// Definitions: [`checked`].
    ///
    /// [`checked`]: crate::definitions::word_policies
    #[must_use]
    fn checked_mul_int(self, rhs: Self::Bits) -> Option<Self>;

    /// Returns the quotient by an integer, rounded toward zero, or `None` if the divisor is 0 or the result does not
    /// fit.
    ///
    /// # Examples
    ///
    /// ```
    /// use zugyelmas::prelude::*;
    /// type Number = FixedI8<4>; // from -8 to 7.9375
    /// let number = Number::from_num::<f64>;
    ///
    /// assert_eq!(number(4.5).checked_div_int(3), Some(number(1.5)));
    /// // -0.03125, rounded toward zero
    /// assert_eq!(number(-0.0625).checked_div_int(2), Some(number(0.0)));
    /// assert_eq!(Number::MIN.checked_div_int(-1), None); // 8 does not fit
    /// assert_eq!(number(4.5).checked_div_int(0), None); // the divisor is 0
    /// ```
    ///
    /// # Proved
    ///
    /// ```text
    /// ensures { option_map Self.number result ≡ checked Self.SIGNED Self.BITS
    ///     (by_divisor (Self.Bits.value rhs) (truncated_quotient (Self.number self) (Self.Bits.value rhs))) }
    /// ```
    ///
    /// Definitions: [`checked`], [`truncated_quotient`], [`by_divisor`].
    ///
    /// [`checked`]: crate::definitions::word_policies
    /// [`truncated_quotient`]: crate::definitions::word_quotient
    /// [`by_divisor`]: crate::definitions::kernel_rows
    #[must_use]
    fn checked_div_int(self, rhs: Self::Bits) -> Option<Self>;

    /// Returns the remainder by an integer, of the quotient that is rounded toward zero, or `None` if the divisor is
    /// 0. The remainder always fits.
    ///
    /// # Examples
    ///
    /// ```
    /// use zugyelmas::prelude::*;
    /// type Number = FixedI8<4>; // from -8 to 7.9375
    /// let number = Number::from_num::<f64>;
    ///
    /// assert_eq!(number(5.5).checked_rem_int(2), Some(number(1.5)));
    /// // the sign of the dividend
    /// assert_eq!(number(-5.5).checked_rem_int(2), Some(number(-1.5)));
    /// assert_eq!(number(5.5).checked_rem_int(0), None); // the divisor is 0
    /// ```
    ///
    /// # Compile errors
    ///
    /// Compiles only if the fraction F is at most the width.
    ///
    /// # Proved
    ///
    /// ```text
    /// requires { Self.FRACTION ≤ Self.BITS }
    /// ensures { option_map Self.number result ≡ checked Self.SIGNED Self.BITS
    ///     (by_divisor (Self.Bits.value rhs)
    ///     (exact_rem (Self.number self) (units (Self.Bits.value rhs) Self.FRACTION))) }
    /// ```
    ///
    /// Definitions: [`checked`], [`by_divisor`], [`exact_rem`], [`units`].
    ///
    /// [`checked`]: crate::definitions::word_policies
    /// [`by_divisor`]: crate::definitions::kernel_rows
    /// [`exact_rem`]: crate::definitions::kernel_rows
    /// [`units`]: crate::definitions::kernel_rows
    #[must_use]
    fn checked_rem_int(self, rhs: Self::Bits) -> Option<Self>;

    /// Returns the Euclidean remainder by an integer, or `None` if the divisor is 0 or the result does not fit.
    ///
    /// # Examples
    ///
    /// ```
    /// use zugyelmas::prelude::*;
    /// type Number = FixedI8<4>; // from -8 to 7.9375
    /// let number = Number::from_num::<f64>;
    ///
    /// assert_eq!(number(5.5).checked_rem_euclid_int(2), Some(number(1.5)));
    /// // never below 0
    /// assert_eq!(number(-5.5).checked_rem_euclid_int(2), Some(number(0.5)));
    /// assert_eq!(number(-0.0625).checked_rem_euclid_int(9), None); // 8.9375 does not fit
    /// assert_eq!(number(5.5).checked_rem_euclid_int(0), None); // the divisor is 0
    /// ```
    ///
    /// # Compile errors
    ///
    /// Compiles only if the fraction F is at most the width.
    ///
    /// # Proved
    ///
    /// ```text
    /// requires { Self.FRACTION ≤ Self.BITS }
    /// ensures { option_map Self.number result ≡ checked Self.SIGNED Self.BITS
    ///     (by_divisor (Self.Bits.value rhs)
    ///     (euclidean_remainder (Self.number self) (units (Self.Bits.value rhs) Self.FRACTION))) }
    /// ```
    ///
    /// Definitions: [`checked`], [`euclidean_remainder`], [`by_divisor`], [`units`].
    ///
    /// [`checked`]: crate::definitions::word_policies
    /// [`euclidean_remainder`]: crate::definitions::word_quotient
    /// [`by_divisor`]: crate::definitions::kernel_rows
    /// [`units`]: crate::definitions::kernel_rows
    #[must_use]
    fn checked_rem_euclid_int(self, rhs: Self::Bits) -> Option<Self>;

    /// Returns the Euclidean quotient by an integer, which is a whole number, or `None` if the divisor is 0 or the
    /// result does not fit.
    ///
    /// # Examples
    ///
    /// ```
    /// use zugyelmas::prelude::*;
    /// type Number = FixedI8<4>; // from -8 to 7.9375
    /// let number = Number::from_num::<f64>;
    ///
    /// assert_eq!(number(5.5).checked_div_euclid_int(2), Some(number(2.0)));
    /// // the remainder is 0.5
    /// assert_eq!(number(-5.5).checked_div_euclid_int(2), Some(number(-3.0)));
    /// assert_eq!(Number::MIN.checked_div_euclid_int(-1), None); // 8 does not fit
    /// assert_eq!(number(5.5).checked_div_euclid_int(0), None); // the divisor is 0
    /// ```
    ///
    /// # Compile errors
    ///
    /// Compiles only if the fraction F is at most the width.
    ///
    /// # Proved
    ///
    /// ```text
    /// requires { Self.FRACTION ≤ Self.BITS }
    /// ensures { option_map Self.number result ≡ checked Self.SIGNED Self.BITS
    ///     (by_divisor (Self.Bits.value rhs)
    ///     (exact_div_euclid (Self.number self) (units (Self.Bits.value rhs) Self.FRACTION) Self.FRACTION)) }
    /// ```
    ///
    /// Definitions: [`checked`], [`by_divisor`], [`exact_div_euclid`], [`units`].
    ///
    /// [`checked`]: crate::definitions::word_policies
    /// [`by_divisor`]: crate::definitions::kernel_rows
    /// [`exact_div_euclid`]: crate::definitions::kernel_rows
    /// [`units`]: crate::definitions::kernel_rows
    #[must_use]
    fn checked_div_euclid_int(self, rhs: Self::Bits) -> Option<Self>;

    /// Returns the square root, rounded down, or `None` if the number is negative or the root does not fit.
    ///
    /// # Examples
    ///
    /// ```
    /// use zugyelmas::prelude::*;
    /// type Number = FixedI8<4>; // from -8 to 7.9375
    /// let number = Number::from_num::<f64>;
    ///
    /// assert_eq!(number(2.25).checked_sqrt(), Some(number(1.5)));
    /// assert_eq!(number(2.0).checked_sqrt(), Some(number(1.375))); // 1.414.., rounded down
    /// // the root of 0.25 does not fit
    /// assert_eq!(FixedI8::<8>::from_bits(64).checked_sqrt(), None);
    /// assert_eq!(number(-1.0).checked_sqrt(), None); // no root
    /// ```
    ///
    /// # Compile errors
    ///
    /// Compiles only if the fraction F is at most the width.
    ///
    /// # Proved
    ///
    /// ```text
    /// requires { Self.FRACTION ≤ Self.BITS }
    /// ensures { option_map Self.number result ≡ checked Self.SIGNED Self.BITS
    ///     (by_sign (Self.number self) (root_of (Self.number self) Self.FRACTION)) }
    /// ```
    ///
    /// Definitions: [`checked`], [`root_of`], [`by_sign`].
    ///
    /// [`checked`]: crate::definitions::word_policies
    /// [`root_of`]: crate::definitions::root_root
    /// [`by_sign`]: crate::definitions::kernel_rows
    #[must_use]
    fn checked_sqrt(self) -> Option<Self>;

    /// Returns the bits shifted left by `rhs`; bits shifted out are lost. Returns `None` if `rhs` is the width or
    /// more.
    ///
    /// # Examples
    ///
    /// ```
    /// use zugyelmas::prelude::*;
    /// type Number = FixedI8<4>; // from -8 to 7.9375
    /// let number = Number::from_num::<f64>;
    ///
    /// assert_eq!(number(1.5).checked_shl(2), Some(number(6.0)));
    /// // 12 without the bits past the width
    /// assert_eq!(number(1.5).checked_shl(3), Some(number(-4.0)));
    /// assert_eq!(number(1.5).checked_shl(9), None); // the shift is not below 8
    /// ```
    ///
    /// # Proved
    ///
    /// ```text
    /// ensures some { rhs < Self.BITS → option_map Self.number result ≡ Some
    ///     (wrap Self.SIGNED Self.BITS (Self.number self *ℤ pos (2 ^ rhs))) }
    /// ensures none { IsNone result ↔ (Self.BITS ≤ rhs) }
    /// ```
    ///
    /// Definitions: [`wrap`].
    ///
    /// [`wrap`]: crate::definitions::word_format
    #[must_use]
    fn checked_shl(self, rhs: u32) -> Option<Self>;

    /// Returns the bits shifted right by `rhs`, rounded down. Returns `None` if `rhs` is the width or more.
    ///
    /// # Examples
    ///
    /// ```
    /// use zugyelmas::prelude::*;
    /// type Number = FixedI8<4>; // from -8 to 7.9375
    /// let number = Number::from_num::<f64>;
    ///
    /// assert_eq!(number(1.5).checked_shr(1), Some(number(0.75)));
    /// // -0.03125, rounded down
    /// assert_eq!(number(-0.0625).checked_shr(1), Some(number(-0.0625)));
    /// assert_eq!(number(1.5).checked_shr(9), None); // the shift is not below 8
    /// ```
    ///
    /// # Proved
    ///
    /// ```text
    /// ensures some { rhs < Self.BITS
    ///     → option_map Self.number result ≡ Some (floor_quotient (Self.number self) (2 ^ rhs)) }
    /// ensures none { IsNone result ↔ (Self.BITS ≤ rhs) }
    /// ```
    ///
    /// Definitions: [`floor_quotient`].
    ///
    /// [`floor_quotient`]: crate::definitions::word_quotient
    #[must_use]
    fn checked_shr(self, rhs: u32) -> Option<Self>;
}

impl<T: Word, const F: u32> Checked for Fixed<T, F> {
    fn checked_neg(self) -> Option<Self> {
        checked_number(neg_of(self.bits))
    }

    fn checked_add(self, rhs: Self) -> Option<Self> {
        checked_number(add_of(self.bits, rhs.bits))
    }

    fn checked_sub(self, rhs: Self) -> Option<Self> {
        checked_number(sub_of(self.bits, rhs.bits))
    }

    #[track_caller]
    fn checked_mul(self, rhs: Self) -> Option<Self> {
        const {
            assert!(
                F <= T::BITS,
                "precondition: the fraction F is at most the width"
            )
        };
        checked_number(mul_of(self.bits, rhs.bits, F))
    }

    #[track_caller]
    fn checked_div(self, rhs: Self) -> Option<Self> {
        const {
            assert!(
                F <= T::BITS,
                "precondition: the fraction F is at most the width"
            )
        };
        if rhs.bits == T::ZERO {
            return None;
        }
        checked_number(div_of(self.bits, rhs.bits, F))
    }

    #[track_caller]
    fn checked_recip(self) -> Option<Self> {
        const {
            assert!(
                F <= T::BITS,
                "precondition: the fraction F is at most the width"
            )
        };
        if self.bits == T::ZERO {
            return None;
        }
        checked_number(recip_of(self.bits, F))
    }

    fn checked_rem(self, rhs: Self) -> Option<Self> {
        if rhs.bits == T::ZERO {
            return None;
        }
        checked_number(rem_of(self.bits, rhs.bits))
    }

    fn checked_rem_euclid(self, rhs: Self) -> Option<Self> {
        if rhs.bits == T::ZERO {
            return None;
        }
        checked_number(rem_euclid_of(self.bits, rhs.bits))
    }

    #[track_caller]
    fn checked_div_euclid(self, rhs: Self) -> Option<Self> {
        const {
            assert!(
                F <= T::BITS,
                "precondition: the fraction F is at most the width"
            )
        };
        if rhs.bits == T::ZERO {
            return None;
        }
        checked_number(div_euclid_of(self.bits, rhs.bits, F))
    }

    fn checked_dist(self, other: Self) -> Option<Self> {
        checked_number(dist_of(self.bits, other.bits))
    }

    fn checked_next_multiple_of(self, other: Self) -> Option<Self> {
        if other.bits == T::ZERO {
            return None;
        }
        checked_number(next_multiple_of_of(self.bits, other.bits))
    }

    fn checked_mul_int(self, rhs: T) -> Option<Self> {
        checked_number(mul_int_of(self.bits, rhs))
    }

    fn checked_div_int(self, rhs: T) -> Option<Self> {
        if rhs == T::ZERO {
            return None;
        }
        checked_number(div_int_of(self.bits, rhs))
    }

    #[track_caller]
    fn checked_rem_int(self, rhs: T) -> Option<Self> {
        const {
            assert!(
                F <= T::BITS,
                "precondition: the fraction F is at most the width"
            )
        };
        if rhs == T::ZERO {
            return None;
        }
        checked_number(rem_int_of(self.bits, rhs, F))
    }

    #[track_caller]
    fn checked_rem_euclid_int(self, rhs: T) -> Option<Self> {
        const {
            assert!(
                F <= T::BITS,
                "precondition: the fraction F is at most the width"
            )
        };
        if rhs == T::ZERO {
            return None;
        }
        checked_number(rem_euclid_int_of(self.bits, rhs, F))
    }

    #[track_caller]
    fn checked_div_euclid_int(self, rhs: T) -> Option<Self> {
        const {
            assert!(
                F <= T::BITS,
                "precondition: the fraction F is at most the width"
            )
        };
        if rhs == T::ZERO {
            return None;
        }
        checked_number(div_euclid_int_of(self.bits, rhs, F))
    }

    #[track_caller]
    fn checked_sqrt(self) -> Option<Self> {
        const {
            assert!(
                F <= T::BITS,
                "precondition: the fraction F is at most the width"
            )
        };
        if self.bits.is_below_zero() {
            return None;
        }
        checked_number(sqrt_of(self.bits, F))
    }

    fn checked_shl(self, rhs: u32) -> Option<Self> {
        if rhs < T::BITS {
            Some(self.unbounded_shl(rhs))
        } else {
            None
        }
    }

    fn checked_shr(self, rhs: u32) -> Option<Self> {
        if rhs < T::BITS {
            Some(self.unbounded_shr(rhs))
        } else {
            None
        }
    }
}

/// The `checked_` forms of signed numbers.
pub trait CheckedSigned: Checked {
    /// Returns the magnitude, or `None` if it does not fit.
    ///
    /// # Examples
    ///
    /// ```
    /// use zugyelmas::prelude::*;
    /// type Number = FixedI8<4>; // from -8 to 7.9375
    /// let number = Number::from_num::<f64>;
    ///
    /// assert_eq!(number(-1.5).checked_abs(), Some(number(1.5)));
    /// assert_eq!(Number::MIN.checked_abs(), None); // 8 does not fit
    /// ```
    ///
    /// # Proved
    ///
    /// ```text
    /// ensures { option_map Self.number result
    ///     ≡ checked Self.SIGNED Self.BITS (Some (exact_abs (Self.number self))) }
    /// ```
    ///
    /// Definitions: [`checked`], [`exact_abs`].
    ///
    /// [`checked`]: crate::definitions::word_policies
    /// [`exact_abs`]: crate::definitions::kernel_rows
    #[must_use]
    fn checked_abs(self) -> Option<Self>;

    /// Returns the sign as a number: 1, 0 or -1, or `None` if it does not fit.
    ///
    /// # Examples
    ///
    /// ```
    /// use zugyelmas::prelude::*;
    /// type Number = FixedI8<4>; // from -8 to 7.9375
    /// let number = Number::from_num::<f64>;
    ///
    /// assert_eq!(number(-2.5).checked_signum(), Some(number(-1.0)));
    /// assert_eq!(number(0.0).checked_signum(), Some(number(0.0)));
    /// assert_eq!(FixedI8::<7>::from_bits(64).checked_signum(), None); // 1 does not fit
    /// ```
    ///
    /// # Compile errors
    ///
    /// Compiles only if the fraction F is at most the width.
    ///
    /// # Proved
    ///
    /// ```text
    /// requires { Self.FRACTION ≤ Self.BITS }
    /// ensures { option_map Self.number result ≡ checked Self.SIGNED Self.BITS
    ///     (Some (exact_signum (Self.number self) Self.FRACTION)) }
    /// ```
    ///
    /// Definitions: [`checked`], [`exact_signum`].
    ///
    /// [`checked`]: crate::definitions::word_policies
    /// [`exact_signum`]: crate::definitions::kernel_rows
    #[must_use]
    fn checked_signum(self) -> Option<Self>;

    /// Returns the sum with an unsigned number, or `None` if it does not fit.
    ///
    /// # Examples
    ///
    /// ```
    /// use zugyelmas::prelude::*;
    /// let number = FixedI8::<4>::from_num::<f64>; // from -8 to 7.9375
    /// let unsigned = FixedU8::<4>::from_num::<f64>; // from 0 to 15.9375
    ///
    /// assert_eq!(number(-1.5).checked_add_unsigned(unsigned(9.0)), Some(number(7.5)));
    /// // 10.5 does not fit
    /// assert_eq!(number(1.5).checked_add_unsigned(unsigned(9.0)), None);
    /// ```
    ///
    /// # Proved
    ///
    /// ```text
    /// ensures { option_map Self.number result ≡ checked Self.SIGNED Self.BITS
    ///     (Some (Self.number self +ℤ Self.Unsigned.number rhs)) }
    /// ```
    ///
    /// Definitions: [`checked`].
    ///
    /// [`checked`]: crate::definitions::word_policies
    #[must_use]
    fn checked_add_unsigned(self, rhs: Self::Unsigned) -> Option<Self>;

    /// Returns the number minus an unsigned number, or `None` if it does not fit.
    ///
    /// # Examples
    ///
    /// ```
    /// use zugyelmas::prelude::*;
    /// let number = FixedI8::<4>::from_num::<f64>; // from -8 to 7.9375
    /// let unsigned = FixedU8::<4>::from_num::<f64>; // from 0 to 15.9375
    ///
    /// assert_eq!(number(1.5).checked_sub_unsigned(unsigned(9.0)), Some(number(-7.5)));
    /// // -10.5 does not fit
    /// assert_eq!(number(-1.5).checked_sub_unsigned(unsigned(9.0)), None);
    /// ```
    ///
    /// # Proved
    ///
    /// ```text
    /// ensures { option_map Self.number result ≡ checked Self.SIGNED Self.BITS
    ///     (Some (Self.number self -ℤ Self.Unsigned.number rhs)) }
    /// ```
    ///
    /// Definitions: [`checked`].
    ///
    /// [`checked`]: crate::definitions::word_policies
    #[must_use]
    fn checked_sub_unsigned(self, rhs: Self::Unsigned) -> Option<Self>;
}

impl<T: SignedWord, const F: u32> CheckedSigned for Fixed<T, F> {
    fn checked_abs(self) -> Option<Self> {
        checked_number(abs_of(self.bits))
    }

    #[track_caller]
    fn checked_signum(self) -> Option<Self> {
        const {
            assert!(
                F <= T::BITS,
                "precondition: the fraction F is at most the width"
            )
        };
        checked_number(signum_of(self.bits, F))
    }

    fn checked_add_unsigned(self, rhs: Fixed<T::Unsigned, F>) -> Option<Self> {
        checked_number(mixed_add_of(self.bits, rhs.bits))
    }

    fn checked_sub_unsigned(self, rhs: Fixed<T::Unsigned, F>) -> Option<Self> {
        checked_number(mixed_sub_of(self.bits, rhs.bits))
    }
}

/// The `checked_` forms of unsigned numbers.
pub trait CheckedUnsigned: Checked {
    /// Returns the least number, not below this one, whose bits are a power of two, or `None` if it does not fit.
    ///
    /// # Examples
    ///
    /// ```
    /// use zugyelmas::prelude::*;
    /// let number = FixedI8::<4>::from_num::<f64>; // from -8 to 7.9375
    /// let unsigned = FixedU8::<4>::from_num::<f64>; // from 0 to 15.9375
    ///
    /// // from 40 bits to 64 bits
    /// assert_eq!(unsigned(2.5).checked_next_power_of_two(), Some(unsigned(4.0)));
    /// // the least power of two of the bits is 1
    /// assert_eq!(unsigned(0.0).checked_next_power_of_two(), Some(unsigned(0.0625)));
    /// assert_eq!(unsigned(9.0).checked_next_power_of_two(), None); // 16 does not fit
    /// ```
    ///
    /// # Proved
    ///
    /// ```text
    /// ensures { option_map Self.number result
    ///     ≡ checked Self.SIGNED Self.BITS (Some (exact_next_power_of_two (Self.number self))) }
    /// ```
    ///
    /// Definitions: [`checked`], [`exact_next_power_of_two`].
    ///
    /// [`checked`]: crate::definitions::word_policies
    /// [`exact_next_power_of_two`]: crate::definitions::kernel_rows
    #[must_use]
    fn checked_next_power_of_two(self) -> Option<Self>;

    /// Returns the sum with a signed number, or `None` if it does not fit.
    ///
    /// # Examples
    ///
    /// ```
    /// use zugyelmas::prelude::*;
    /// let number = FixedI8::<4>::from_num::<f64>; // from -8 to 7.9375
    /// let unsigned = FixedU8::<4>::from_num::<f64>; // from 0 to 15.9375
    ///
    /// assert_eq!(unsigned(9.0).checked_add_signed(number(-1.5)), Some(unsigned(7.5)));
    /// // -0.5 does not fit
    /// assert_eq!(unsigned(1.5).checked_add_signed(number(-2.0)), None);
    /// ```
    ///
    /// # Proved
    ///
    /// ```text
    /// ensures { option_map Self.number result ≡ checked Self.SIGNED Self.BITS
    ///     (Some (Self.number self +ℤ Self.Signed.number rhs)) }
    /// ```
    ///
    /// Definitions: [`checked`].
    ///
    /// [`checked`]: crate::definitions::word_policies
    #[must_use]
    fn checked_add_signed(self, rhs: Self::Signed) -> Option<Self>;

    /// Returns the number minus a signed number, or `None` if it does not fit.
    ///
    /// # Examples
    ///
    /// ```
    /// use zugyelmas::prelude::*;
    /// let number = FixedI8::<4>::from_num::<f64>; // from -8 to 7.9375
    /// let unsigned = FixedU8::<4>::from_num::<f64>; // from 0 to 15.9375
    ///
    /// assert_eq!(unsigned(9.0).checked_sub_signed(number(-1.5)), Some(unsigned(10.5)));
    /// assert_eq!(unsigned(1.5).checked_sub_signed(number(2.0)), None); // -0.5 does not fit
    /// ```
    ///
    /// # Proved
    ///
    /// ```text
    /// ensures { option_map Self.number result ≡ checked Self.SIGNED Self.BITS
    ///     (Some (Self.number self -ℤ Self.Signed.number rhs)) }
    /// ```
    ///
    /// Definitions: [`checked`].
    ///
    /// [`checked`]: crate::definitions::word_policies
    #[must_use]
    fn checked_sub_signed(self, rhs: Self::Signed) -> Option<Self>;
}

impl<T: UnsignedWord, const F: u32> CheckedUnsigned for Fixed<T, F> {
    fn checked_next_power_of_two(self) -> Option<Self> {
        checked_number(next_power_of_two_of(self.bits))
    }

    fn checked_add_signed(self, rhs: Fixed<T::Signed, F>) -> Option<Self> {
        checked_number(mixed_add_of(self.bits, rhs.bits))
    }

    fn checked_sub_signed(self, rhs: Fixed<T::Signed, F>) -> Option<Self> {
        checked_number(mixed_sub_of(self.bits, rhs.bits))
    }
}
