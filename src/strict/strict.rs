// Made by `make package` of crates/fixed_strict/src/strict.rt, which is proved: changes go there.

//! Operations whose precondition is that the exact result fits.

use crate::kernel::{
    abs_of, add_of, dist_of, div_euclid_int_of, div_euclid_of, div_int_of, div_of, mixed_add_of,
    mixed_sub_of, mul_int_of, mul_of, neg_of, next_multiple_of_of, next_power_of_two_of, recip_of,
    rem_euclid_int_of, rem_euclid_of, rem_int_of, rem_of, signum_of, sqrt_of, sub_of,
};
use crate::stopping::{Fixed, Held, Number, exact_number};
use crate::word::{RawWord, SignedWord, UnsignedWord, Word};

/// The `strict_` forms of all numbers. Precondition of each call: the exact result fits. Results are in units of
/// `2^-F`, and integer operands are whole numbers. Precondition of each call that uses F: F is at most the width.
pub trait Strict: Number {
    /// Returns the negated number. Precondition: it fits.
    ///
    /// # Examples
    ///
    /// ```
    /// use zugyelmas::prelude::*;
    /// type Number = FixedI8<4>; // from -8 to 7.9375
    /// let number = Number::from_num::<f64>;
    ///
    /// assert_eq!(number(1.5).strict_neg(), number(-1.5));
    /// ```
    ///
    /// ```should_panic
    /// # use zugyelmas::prelude::*;
    /// # type Number = FixedI8<4>; // from -8 to 7.9375
    /// # let number = Number::from_num::<f64>;
    /// # std::panic::set_hook(Box::new(|_| {}));
    /// Number::MIN.strict_neg(); // 8 does not fit
    /// ```
    ///
    /// # Panics
    ///
    /// Panics unless the number fits.
    ///
    /// # Proved
    ///
    /// ```text
    /// requires { InRange Self.SIGNED Self.BITS (neg_ℤ (Self.number self)) }
    /// ensures { Self.number result ≡ neg_ℤ (Self.number self) }
    /// ```
    ///
    /// Definitions: [`InRange`].
    ///
    /// [`InRange`]: crate::definitions::word_format
    #[must_use]
    fn strict_neg(self) -> Self;

    /// Returns the sum. Precondition: it fits.
    ///
    /// # Examples
    ///
    /// ```
    /// use zugyelmas::prelude::*;
    /// type Number = FixedI8<4>; // from -8 to 7.9375
    /// let number = Number::from_num::<f64>;
    ///
    /// assert_eq!(number(1.5).strict_add(number(2.25)), number(3.75));
    /// ```
    ///
    /// ```should_panic
    /// # use zugyelmas::prelude::*;
    /// # type Number = FixedI8<4>; // from -8 to 7.9375
    /// # let number = Number::from_num::<f64>;
    /// # std::panic::set_hook(Box::new(|_| {}));
    /// Number::MAX.strict_add(Number::DELTA); // 8 does not fit
    /// ```
    ///
    /// # Panics
    ///
    /// Panics unless the number fits.
    ///
    /// # Proved
    ///
    /// ```text
    /// requires { InRange Self.SIGNED Self.BITS (Self.number self +ℤ Self.number rhs) }
    /// ensures { Self.number result ≡ Self.number self +ℤ Self.number rhs }
    /// ```
    ///
    /// Definitions: [`InRange`].
    ///
    /// [`InRange`]: crate::definitions::word_format
    #[must_use]
    fn strict_add(self, rhs: Self) -> Self;

    /// Returns the difference. Precondition: it fits.
    ///
    /// # Examples
    ///
    /// ```
    /// use zugyelmas::prelude::*;
    /// type Number = FixedI8<4>; // from -8 to 7.9375
    /// let number = Number::from_num::<f64>;
    ///
    /// assert_eq!(number(1.5).strict_sub(number(2.25)), number(-0.75));
    /// ```
    ///
    /// ```should_panic
    /// # use zugyelmas::prelude::*;
    /// # type Number = FixedI8<4>; // from -8 to 7.9375
    /// # let number = Number::from_num::<f64>;
    /// # std::panic::set_hook(Box::new(|_| {}));
    /// Number::MIN.strict_sub(Number::DELTA); // -8.0625 does not fit
    /// ```
    ///
    /// # Panics
    ///
    /// Panics unless the number fits.
    ///
    /// # Proved
    ///
    /// ```text
    /// requires { InRange Self.SIGNED Self.BITS (Self.number self -ℤ Self.number rhs) }
    /// ensures { Self.number result ≡ Self.number self -ℤ Self.number rhs }
    /// ```
    ///
    /// Definitions: [`InRange`].
    ///
    /// [`InRange`]: crate::definitions::word_format
    #[must_use]
    fn strict_sub(self, rhs: Self) -> Self;

    /// Returns the product, rounded down. Precondition: it fits.
    ///
    /// # Examples
    ///
    /// ```
    /// use zugyelmas::prelude::*;
    /// type Number = FixedI8<4>; // from -8 to 7.9375
    /// let number = Number::from_num::<f64>;
    ///
    /// assert_eq!(number(1.5).strict_mul(number(2.25)), number(3.375));
    /// // -0.03125, rounded down
    /// assert_eq!(number(0.5).strict_mul(number(-0.0625)), number(-0.0625));
    /// ```
    ///
    /// ```should_panic
    /// # use zugyelmas::prelude::*;
    /// # type Number = FixedI8<4>; // from -8 to 7.9375
    /// # let number = Number::from_num::<f64>;
    /// # std::panic::set_hook(Box::new(|_| {}));
    /// number(4.0).strict_mul(number(2.0)); // 8 does not fit
    /// ```
    ///
    /// # Compile errors
    ///
    /// Compiles only if the fraction F is at most the width.
    ///
    /// # Panics
    ///
    /// Panics unless the number fits.
    ///
    /// # Proved
    ///
    /// ```text
    /// requires fraction { Self.FRACTION ≤ Self.BITS }
    /// requires fits { InRange Self.SIGNED Self.BITS
    ///     (exact_mul (Self.number self) (Self.number rhs) Self.FRACTION) }
    /// ensures { Self.number result
    ///     ≡ exact_mul (Self.number self) (Self.number rhs) Self.FRACTION }
    /// ```
    ///
    /// Definitions: [`InRange`], [`exact_mul`].
    ///
    /// [`InRange`]: crate::definitions::word_format
    /// [`exact_mul`]: crate::definitions::kernel_rows
    #[must_use]
    fn strict_mul(self, rhs: Self) -> Self;

    /// Returns the quotient, rounded toward zero. Preconditions: the divisor is not 0, and the result fits.
    ///
    /// # Examples
    ///
    /// ```
    /// use zugyelmas::prelude::*;
    /// type Number = FixedI8<4>; // from -8 to 7.9375
    /// let number = Number::from_num::<f64>;
    ///
    /// assert_eq!(number(3.0).strict_div(number(2.0)), number(1.5));
    /// // -1/3, rounded toward zero
    /// assert_eq!(number(-1.0).strict_div(number(3.0)), number(-0.3125));
    /// ```
    ///
    /// ```should_panic
    /// # use zugyelmas::prelude::*;
    /// # type Number = FixedI8<4>; // from -8 to 7.9375
    /// # let number = Number::from_num::<f64>;
    /// # std::panic::set_hook(Box::new(|_| {}));
    /// number(4.0).strict_div(number(0.5)); // 8 does not fit
    /// ```
    ///
    /// ```should_panic
    /// # use zugyelmas::prelude::*;
    /// # type Number = FixedI8<4>; // from -8 to 7.9375
    /// # let number = Number::from_num::<f64>;
    /// # std::panic::set_hook(Box::new(|_| {}));
    /// number(1.0).strict_div(number(0.0)); // the divisor is 0
    /// ```
    ///
    /// # Compile errors
    ///
    /// Compiles only if the fraction F is at most the width.
    ///
    /// # Panics
    ///
    /// Panics unless the divisor is not 0, and the number fits.
    ///
    /// # Proved
    ///
    /// ```text
    /// requires fraction { Self.FRACTION ≤ Self.BITS }
    /// requires divisor { Self.number rhs ≢ pos 0 }
    /// requires fits { InRange Self.SIGNED Self.BITS
    ///     (exact_div (Self.number self) (Self.number rhs) Self.FRACTION) }
    /// ensures { Self.number result
    ///     ≡ exact_div (Self.number self) (Self.number rhs) Self.FRACTION }
    /// ```
    ///
    /// Definitions: [`InRange`], [`exact_div`].
    ///
    /// [`InRange`]: crate::definitions::word_format
    /// [`exact_div`]: crate::definitions::kernel_rows
    #[must_use]
    fn strict_div(self, rhs: Self) -> Self;

    /// Returns 1 over the number, rounded toward zero. Preconditions: the number is not 0, and the result fits.
    ///
    /// # Examples
    ///
    /// ```
    /// use zugyelmas::prelude::*;
    /// type Number = FixedI8<4>; // from -8 to 7.9375
    /// let number = Number::from_num::<f64>;
    ///
    /// assert_eq!(number(2.0).strict_recip(), number(0.5));
    /// // -1/3, rounded toward zero
    /// assert_eq!(number(-3.0).strict_recip(), number(-0.3125));
    /// ```
    ///
    /// ```should_panic
    /// # use zugyelmas::prelude::*;
    /// # type Number = FixedI8<4>; // from -8 to 7.9375
    /// # let number = Number::from_num::<f64>;
    /// # std::panic::set_hook(Box::new(|_| {}));
    /// number(0.125).strict_recip(); // 8 does not fit
    /// ```
    ///
    /// ```should_panic
    /// # use zugyelmas::prelude::*;
    /// # type Number = FixedI8<4>; // from -8 to 7.9375
    /// # let number = Number::from_num::<f64>;
    /// # std::panic::set_hook(Box::new(|_| {}));
    /// number(0.0).strict_recip(); // the divisor is 0
    /// ```
    ///
    /// # Compile errors
    ///
    /// Compiles only if the fraction F is at most the width.
    ///
    /// # Panics
    ///
    /// Panics unless the divisor is not 0, and the number fits.
    ///
    /// # Proved
    ///
    /// ```text
    /// requires fraction { Self.FRACTION ≤ Self.BITS }
    /// requires divisor { Self.number self ≢ pos 0 }
    /// requires fits { InRange Self.SIGNED Self.BITS
    ///     (exact_recip (Self.number self) Self.FRACTION) }
    /// ensures { Self.number result ≡ exact_recip (Self.number self) Self.FRACTION }
    /// ```
    ///
    /// Definitions: [`InRange`], [`exact_recip`].
    ///
    /// [`InRange`]: crate::definitions::word_format
    /// [`exact_recip`]: crate::definitions::kernel_rows
    #[must_use]
    fn strict_recip(self) -> Self;

    /// Returns the remainder of the quotient that is rounded toward zero. It always fits. Precondition: the divisor
    /// is not 0.
    ///
    /// # Examples
    ///
    /// ```
    /// use zugyelmas::prelude::*;
    /// type Number = FixedI8<4>; // from -8 to 7.9375
    /// let number = Number::from_num::<f64>;
    ///
    /// assert_eq!(number(5.5).strict_rem(number(2.0)), number(1.5));
    /// // the sign of the dividend
    /// assert_eq!(number(-5.5).strict_rem(number(2.0)), number(-1.5));
    /// ```
    ///
    /// ```should_panic
    /// # use zugyelmas::prelude::*;
    /// # type Number = FixedI8<4>; // from -8 to 7.9375
    /// # let number = Number::from_num::<f64>;
    /// # std::panic::set_hook(Box::new(|_| {}));
    /// number(5.5).strict_rem(number(0.0)); // the divisor is 0
    /// ```
    ///
    /// # Panics
    ///
    /// Panics unless the divisor is not 0, and the number fits.
    ///
    /// # Proved
    ///
    /// ```text
    /// requires divisor { Self.number rhs ≢ pos 0 }
    /// requires fits { InRange Self.SIGNED Self.BITS
    ///     (exact_rem (Self.number self) (Self.number rhs)) }
    /// ensures { Self.number result ≡ exact_rem (Self.number self) (Self.number rhs) }
    /// ```
    ///
    /// Definitions: [`InRange`], [`exact_rem`].
    ///
    /// [`InRange`]: crate::definitions::word_format
    /// [`exact_rem`]: crate::definitions::kernel_rows
    #[must_use]
    fn strict_rem(self, rhs: Self) -> Self;

    /// Returns the Euclidean remainder, which is at least 0. It always fits. Precondition: the divisor is not 0.
    ///
    /// # Examples
    ///
    /// ```
    /// use zugyelmas::prelude::*;
    /// type Number = FixedI8<4>; // from -8 to 7.9375
    /// let number = Number::from_num::<f64>;
    ///
    /// assert_eq!(number(5.5).strict_rem_euclid(number(2.0)), number(1.5));
    /// // never below 0
    /// assert_eq!(number(-5.5).strict_rem_euclid(number(2.0)), number(0.5));
    /// ```
    ///
    /// ```should_panic
    /// # use zugyelmas::prelude::*;
    /// # type Number = FixedI8<4>; // from -8 to 7.9375
    /// # let number = Number::from_num::<f64>;
    /// # std::panic::set_hook(Box::new(|_| {}));
    /// number(5.5).strict_rem_euclid(number(0.0)); // the divisor is 0
    /// ```
    ///
    /// # Panics
    ///
    /// Panics unless the divisor is not 0, and the number fits.
    ///
    /// # Proved
    ///
    /// ```text
    /// requires divisor { Self.number rhs ≢ pos 0 }
    /// requires fits { InRange Self.SIGNED Self.BITS
    ///     (euclidean_remainder (Self.number self) (Self.number rhs)) }
    /// ensures { Self.number result ≡ euclidean_remainder (Self.number self) (Self.number rhs) }
    /// ```
    ///
    /// Definitions: [`InRange`], [`euclidean_remainder`].
    ///
    /// [`InRange`]: crate::definitions::word_format
    /// [`euclidean_remainder`]: crate::definitions::word_quotient
    #[must_use]
    fn strict_rem_euclid(self, rhs: Self) -> Self;

    /// Returns the Euclidean quotient, which is a whole number. Preconditions: the divisor is not 0, and the result
    /// fits.
    ///
    /// # Examples
    ///
    /// ```
    /// use zugyelmas::prelude::*;
    /// type Number = FixedI8<4>; // from -8 to 7.9375
    /// let number = Number::from_num::<f64>;
    ///
    /// assert_eq!(number(5.5).strict_div_euclid(number(2.0)), number(2.0));
    /// // the remainder is 0.5
    /// assert_eq!(number(-5.5).strict_div_euclid(number(2.0)), number(-3.0));
    /// ```
    ///
    /// ```should_panic
    /// # use zugyelmas::prelude::*;
    /// # type Number = FixedI8<4>; // from -8 to 7.9375
    /// # let number = Number::from_num::<f64>;
    /// # std::panic::set_hook(Box::new(|_| {}));
    /// number(7.5).strict_div_euclid(number(0.5)); // 15 does not fit
    /// ```
    ///
    /// ```should_panic
    /// # use zugyelmas::prelude::*;
    /// # type Number = FixedI8<4>; // from -8 to 7.9375
    /// # let number = Number::from_num::<f64>;
    /// # std::panic::set_hook(Box::new(|_| {}));
    /// number(5.5).strict_div_euclid(number(0.0)); // the divisor is 0
    /// ```
    ///
    /// # Compile errors
    ///
    /// Compiles only if the fraction F is at most the width.
    ///
    /// # Panics
    ///
    /// Panics unless the divisor is not 0, and the number fits.
    ///
    /// # Proved
    ///
    /// ```text
    /// requires fraction { Self.FRACTION ≤ Self.BITS }
    /// requires divisor { Self.number rhs ≢ pos 0 }
    /// requires fits { InRange Self.SIGNED Self.BITS
    ///     (exact_div_euclid (Self.number self) (Self.number rhs) Self.FRACTION) }
    /// ensures { Self.number result
    ///     ≡ exact_div_euclid (Self.number self) (Self.number rhs) Self.FRACTION }
    /// ```
    ///
    /// Definitions: [`InRange`], [`exact_div_euclid`].
    ///
    /// [`InRange`]: crate::definitions::word_format
    /// [`exact_div_euclid`]: crate::definitions::kernel_rows
    #[must_use]
    fn strict_div_euclid(self, rhs: Self) -> Self;

    /// Returns the distance between the numbers. Precondition: it fits.
    ///
    /// # Examples
    ///
    /// ```
    /// use zugyelmas::prelude::*;
    /// type Number = FixedI8<4>; // from -8 to 7.9375
    /// let number = Number::from_num::<f64>;
    ///
    /// assert_eq!(number(1.5).strict_dist(number(-2.0)), number(3.5));
    /// ```
    ///
    /// ```should_panic
    /// # use zugyelmas::prelude::*;
    /// # type Number = FixedI8<4>; // from -8 to 7.9375
    /// # let number = Number::from_num::<f64>;
    /// # std::panic::set_hook(Box::new(|_| {}));
    /// Number::MAX.strict_dist(Number::MIN); // 15.9375 does not fit
    /// ```
    ///
    /// # Panics
    ///
    /// Panics unless the number fits.
    ///
    /// # Proved
    ///
    /// ```text
    /// requires { InRange Self.SIGNED Self.BITS
    ///     (exact_abs (Self.number self -ℤ Self.number other)) }
    /// ensures { Self.number result ≡ exact_abs (Self.number self -ℤ Self.number other) }
    /// ```
    ///
    /// Definitions: [`InRange`], [`exact_abs`].
    ///
    /// [`InRange`]: crate::definitions::word_format
    /// [`exact_abs`]: crate::definitions::kernel_rows
    #[must_use]
    fn strict_dist(self, other: Self) -> Self;

    /// Returns the next multiple of `other`, upward if `other` is positive and downward if it is negative.
    /// Preconditions: `other` is not 0, and the result fits.
    ///
    /// # Examples
    ///
    /// ```
    /// use zugyelmas::prelude::*;
    /// type Number = FixedI8<4>; // from -8 to 7.9375
    /// let number = Number::from_num::<f64>;
    ///
    /// assert_eq!(number(2.5).strict_next_multiple_of(number(1.0)), number(3.0));
    /// // downward, by the sign of the divisor
    /// assert_eq!(number(2.5).strict_next_multiple_of(number(-1.0)), number(2.0));
    /// ```
    ///
    /// ```should_panic
    /// # use zugyelmas::prelude::*;
    /// # type Number = FixedI8<4>; // from -8 to 7.9375
    /// # let number = Number::from_num::<f64>;
    /// # std::panic::set_hook(Box::new(|_| {}));
    /// number(7.5).strict_next_multiple_of(number(1.0)); // 8 does not fit
    /// ```
    ///
    /// ```should_panic
    /// # use zugyelmas::prelude::*;
    /// # type Number = FixedI8<4>; // from -8 to 7.9375
    /// # let number = Number::from_num::<f64>;
    /// # std::panic::set_hook(Box::new(|_| {}));
    /// number(2.5).strict_next_multiple_of(number(0.0)); // the divisor is 0
    /// ```
    ///
    /// # Panics
    ///
    /// Panics unless the divisor is not 0, and the number fits.
    ///
    /// # Proved
    ///
    /// ```text
    /// requires divisor { Self.number other ≢ pos 0 }
    /// requires fits { InRange Self.SIGNED Self.BITS
    ///     (exact_next_multiple_of (Self.number self) (Self.number other)) }
    /// ensures { Self.number result
    ///     ≡ exact_next_multiple_of (Self.number self) (Self.number other) }
    /// ```
    ///
    /// Definitions: [`InRange`], [`exact_next_multiple_of`].
    ///
    /// [`InRange`]: crate::definitions::word_format
    /// [`exact_next_multiple_of`]: crate::definitions::kernel_rows
    #[must_use]
    fn strict_next_multiple_of(self, other: Self) -> Self;

    /// Returns the product by an integer. Precondition: it fits.
    ///
    /// # Examples
    ///
    /// ```
    /// use zugyelmas::prelude::*;
    /// type Number = FixedI8<4>; // from -8 to 7.9375
    /// let number = Number::from_num::<f64>;
    ///
    /// assert_eq!(number(1.5).strict_mul_int(3), number(4.5));
    /// ```
    ///
    /// ```should_panic
    /// # use zugyelmas::prelude::*;
    /// # type Number = FixedI8<4>; // from -8 to 7.9375
    /// # let number = Number::from_num::<f64>;
    /// # std::panic::set_hook(Box::new(|_| {}));
    /// number(1.5).strict_mul_int(6); // 9 does not fit
    /// ```
    ///
    /// # Panics
    ///
    /// Panics unless the number fits.
    ///
    /// # Proved
    ///
    /// ```text
    /// requires { InRange Self.SIGNED Self.BITS
    ///     (Self.number self *ℤ Self.Bits.value rhs) }
    /// ensures { Self.number result ≡ Self.number self *ℤ Self.Bits.value rhs }
    /// ```
    ///
    /// Definitions: [`InRange`].
    ///
    /// [`InRange`]: crate::definitions::word_format
    #[must_use]
    fn strict_mul_int(self, rhs: Self::Bits) -> Self;

    /// Returns the quotient by an integer, rounded toward zero. Preconditions: the divisor is not 0, and the result
    /// fits.
    ///
    /// # Examples
    ///
    /// ```
    /// use zugyelmas::prelude::*;
    /// type Number = FixedI8<4>; // from -8 to 7.9375
    /// let number = Number::from_num::<f64>;
    ///
    /// assert_eq!(number(4.5).strict_div_int(3), number(1.5));
    /// // -0.03125, rounded toward zero
    /// assert_eq!(number(-0.0625).strict_div_int(2), number(0.0));
    /// ```
    ///
    /// ```should_panic
    /// # use zugyelmas::prelude::*;
    /// # type Number = FixedI8<4>; // from -8 to 7.9375
    /// # let number = Number::from_num::<f64>;
    /// # std::panic::set_hook(Box::new(|_| {}));
    /// Number::MIN.strict_div_int(-1); // 8 does not fit
    /// ```
    ///
    /// ```should_panic
    /// # use zugyelmas::prelude::*;
    /// # type Number = FixedI8<4>; // from -8 to 7.9375
    /// # let number = Number::from_num::<f64>;
    /// # std::panic::set_hook(Box::new(|_| {}));
    /// number(4.5).strict_div_int(0); // the divisor is 0
    /// ```
    ///
    /// # Panics
    ///
    /// Panics unless the divisor is not 0, and the number fits.
    ///
    /// # Proved
    ///
    /// ```text
    /// requires divisor { Self.Bits.value rhs ≢ pos 0 }
    /// requires fits { InRange Self.SIGNED Self.BITS
    ///     (truncated_quotient (Self.number self) (Self.Bits.value rhs)) }
    /// ensures { Self.number result ≡ truncated_quotient (Self.number self) (Self.Bits.value rhs) }
    /// ```
    ///
    /// Definitions: [`InRange`], [`truncated_quotient`].
    ///
    /// [`InRange`]: crate::definitions::word_format
    /// [`truncated_quotient`]: crate::definitions::word_quotient
    #[must_use]
    fn strict_div_int(self, rhs: Self::Bits) -> Self;

    /// Returns the remainder by an integer, of the quotient that is rounded toward zero. It always fits.
    /// Precondition: the divisor is not 0.
    ///
    /// # Examples
    ///
    /// ```
    /// use zugyelmas::prelude::*;
    /// type Number = FixedI8<4>; // from -8 to 7.9375
    /// let number = Number::from_num::<f64>;
    ///
    /// assert_eq!(number(5.5).strict_rem_int(2), number(1.5));
    /// assert_eq!(number(-5.5).strict_rem_int(2), number(-1.5)); // the sign of the dividend
    /// ```
    ///
    /// ```should_panic
    /// # use zugyelmas::prelude::*;
    /// # type Number = FixedI8<4>; // from -8 to 7.9375
    /// # let number = Number::from_num::<f64>;
    /// # std::panic::set_hook(Box::new(|_| {}));
    /// number(5.5).strict_rem_int(0); // the divisor is 0
    /// ```
    ///
    /// # Compile errors
    ///
    /// Compiles only if the fraction F is at most the width.
    ///
    /// # Panics
    ///
    /// Panics unless the divisor is not 0, and the number fits.
    ///
    /// # Proved
    ///
    /// ```text
    /// requires fraction { Self.FRACTION ≤ Self.BITS }
    /// requires divisor { Self.Bits.value rhs ≢ pos 0 }
    /// requires fits { InRange Self.SIGNED Self.BITS
    ///     (exact_rem (Self.number self) (units (Self.Bits.value rhs) Self.FRACTION)) }
    /// ensures { Self.number result
    ///     ≡ exact_rem (Self.number self) (units (Self.Bits.value rhs) Self.FRACTION) }
    /// ```
    ///
    /// Definitions: [`InRange`], [`exact_rem`], [`units`].
    ///
    /// [`InRange`]: crate::definitions::word_format
    /// [`exact_rem`]: crate::definitions::kernel_rows
    /// [`units`]: crate::definitions::kernel_rows
    #[must_use]
    fn strict_rem_int(self, rhs: Self::Bits) -> Self;

    /// Returns the Euclidean remainder by an integer. Preconditions: the divisor is not 0, and the result fits.
    ///
    /// # Examples
    ///
    /// ```
    /// use zugyelmas::prelude::*;
    /// type Number = FixedI8<4>; // from -8 to 7.9375
    /// let number = Number::from_num::<f64>;
    ///
    /// assert_eq!(number(5.5).strict_rem_euclid_int(2), number(1.5));
    /// assert_eq!(number(-5.5).strict_rem_euclid_int(2), number(0.5)); // never below 0
    /// ```
    ///
    /// ```should_panic
    /// # use zugyelmas::prelude::*;
    /// # type Number = FixedI8<4>; // from -8 to 7.9375
    /// # let number = Number::from_num::<f64>;
    /// # std::panic::set_hook(Box::new(|_| {}));
    /// number(-0.0625).strict_rem_euclid_int(9); // 8.9375 does not fit
    /// ```
    ///
    /// ```should_panic
    /// # use zugyelmas::prelude::*;
    /// # type Number = FixedI8<4>; // from -8 to 7.9375
    /// # let number = Number::from_num::<f64>;
    /// # std::panic::set_hook(Box::new(|_| {}));
    /// number(5.5).strict_rem_euclid_int(0); // the divisor is 0
    /// ```
    ///
    /// # Compile errors
    ///
    /// Compiles only if the fraction F is at most the width.
    ///
    /// # Panics
    ///
    /// Panics unless the divisor is not 0, and the number fits.
    ///
    /// # Proved
    ///
    /// ```text
    /// requires fraction { Self.FRACTION ≤ Self.BITS }
    /// requires divisor { Self.Bits.value rhs ≢ pos 0 }
    /// requires fits { InRange Self.SIGNED Self.BITS
    ///     (euclidean_remainder (Self.number self) (units (Self.Bits.value rhs) Self.FRACTION)) }
    /// ensures { Self.number result
    ///     ≡ euclidean_remainder (Self.number self) (units (Self.Bits.value rhs) Self.FRACTION) }
    /// ```
    ///
    /// Definitions: [`InRange`], [`euclidean_remainder`], [`units`].
    ///
    /// [`InRange`]: crate::definitions::word_format
    /// [`euclidean_remainder`]: crate::definitions::word_quotient
    /// [`units`]: crate::definitions::kernel_rows
    #[must_use]
    fn strict_rem_euclid_int(self, rhs: Self::Bits) -> Self;

    /// Returns the Euclidean quotient by an integer, which is a whole number. Preconditions: the divisor is not 0,
    /// and the result fits.
    ///
    /// # Examples
    ///
    /// ```
    /// use zugyelmas::prelude::*;
    /// type Number = FixedI8<4>; // from -8 to 7.9375
    /// let number = Number::from_num::<f64>;
    ///
    /// assert_eq!(number(5.5).strict_div_euclid_int(2), number(2.0));
    /// // the remainder is 0.5
    /// assert_eq!(number(-5.5).strict_div_euclid_int(2), number(-3.0));
    /// ```
    ///
    /// ```should_panic
    /// # use zugyelmas::prelude::*;
    /// # type Number = FixedI8<4>; // from -8 to 7.9375
    /// # let number = Number::from_num::<f64>;
    /// # std::panic::set_hook(Box::new(|_| {}));
    /// Number::MIN.strict_div_euclid_int(-1); // 8 does not fit
    /// ```
    ///
    /// ```should_panic
    /// # use zugyelmas::prelude::*;
    /// # type Number = FixedI8<4>; // from -8 to 7.9375
    /// # let number = Number::from_num::<f64>;
    /// # std::panic::set_hook(Box::new(|_| {}));
    /// number(5.5).strict_div_euclid_int(0); // the divisor is 0
    /// ```
    ///
    /// # Compile errors
    ///
    /// Compiles only if the fraction F is at most the width.
    ///
    /// # Panics
    ///
    /// Panics unless the divisor is not 0, and the number fits.
    ///
    /// # Proved
    ///
    /// ```text
    /// requires fraction { Self.FRACTION ≤ Self.BITS }
    /// requires divisor { Self.Bits.value rhs ≢ pos 0 }
    /// requires fits { InRange Self.SIGNED Self.BITS
    ///     (exact_div_euclid (Self.number self) (units (Self.Bits.value rhs) Self.FRACTION) Self.FRACTION) }
    /// ensures { Self.number result
    ///     ≡ exact_div_euclid (Self.number self) (units (Self.Bits.value rhs) Self.FRACTION) Self.FRACTION }
    /// ```
    ///
    /// Definitions: [`InRange`], [`exact_div_euclid`], [`units`].
    ///
    /// [`InRange`]: crate::definitions::word_format
    /// [`exact_div_euclid`]: crate::definitions::kernel_rows
    /// [`units`]: crate::definitions::kernel_rows
    #[must_use]
    fn strict_div_euclid_int(self, rhs: Self::Bits) -> Self;

    /// Returns the square root, rounded down. Preconditions: the number is not negative, and the root fits.
    ///
    /// # Examples
    ///
    /// ```
    /// use zugyelmas::prelude::*;
    /// type Number = FixedI8<4>; // from -8 to 7.9375
    /// let number = Number::from_num::<f64>;
    ///
    /// assert_eq!(number(2.25).strict_sqrt(), number(1.5));
    /// assert_eq!(number(2.0).strict_sqrt(), number(1.375)); // 1.414.., rounded down
    /// ```
    ///
    /// ```should_panic
    /// # use zugyelmas::prelude::*;
    /// # type Number = FixedI8<4>; // from -8 to 7.9375
    /// # let number = Number::from_num::<f64>;
    /// # std::panic::set_hook(Box::new(|_| {}));
    /// FixedI8::<8>::from_bits(64).strict_sqrt(); // the root of 0.25 does not fit
    /// ```
    ///
    /// ```should_panic
    /// # use zugyelmas::prelude::*;
    /// # type Number = FixedI8<4>; // from -8 to 7.9375
    /// # let number = Number::from_num::<f64>;
    /// # std::panic::set_hook(Box::new(|_| {}));
    /// number(-1.0).strict_sqrt(); // no root
    /// ```
    ///
    /// # Compile errors
    ///
    /// Compiles only if the fraction F is at most the width.
    ///
    /// # Panics
    ///
    /// Panics unless the number is not below 0, and the number fits.
    ///
    /// # Proved
    ///
    /// ```text
    /// requires fraction { Self.FRACTION ≤ Self.BITS }
    /// requires sign { pos 0 ≤ℤ Self.number self }
    /// requires fits { InRange Self.SIGNED Self.BITS
    ///     (root_of (Self.number self) Self.FRACTION) }
    /// ensures { Self.number result ≡ root_of (Self.number self) Self.FRACTION }
    /// ```
    ///
    /// Definitions: [`InRange`], [`root_of`].
    ///
    /// [`InRange`]: crate::definitions::word_format
    /// [`root_of`]: crate::definitions::root_root
    #[must_use]
    fn strict_sqrt(self) -> Self;

    /// Returns the bits shifted left by `rhs`; bits shifted out are lost. Precondition: `rhs` is below the width.
    ///
    /// # Examples
    ///
    /// ```
    /// use zugyelmas::prelude::*;
    /// type Number = FixedI8<4>; // from -8 to 7.9375
    /// let number = Number::from_num::<f64>;
    ///
    /// assert_eq!(number(1.5).strict_shl(2), number(6.0));
    /// // 12 without the bits past the width
    /// assert_eq!(number(1.5).strict_shl(3), number(-4.0));
    /// ```
    ///
    /// ```should_panic
    /// # use zugyelmas::prelude::*;
    /// # type Number = FixedI8<4>; // from -8 to 7.9375
    /// # let number = Number::from_num::<f64>;
    /// # std::panic::set_hook(Box::new(|_| {}));
    /// number(1.5).strict_shl(9); // the shift is not below 8
    /// ```
    ///
    /// # Panics
    ///
    /// Panics unless the shift is below the width.
    ///
    /// # Proved
    ///
    /// ```text
    /// requires { rhs < Self.BITS }
    /// ensures { Self.number result
    ///     ≡ wrap Self.SIGNED Self.BITS (Self.number self *ℤ pos (2 ^ rhs)) }
    /// ```
    ///
    /// Definitions: [`wrap`].
    ///
    /// [`wrap`]: crate::definitions::word_format
    #[must_use]
    fn strict_shl(self, rhs: u32) -> Self;

    /// Returns the bits shifted right by `rhs`, rounded down. Precondition: `rhs` is below the width.
    ///
    /// # Examples
    ///
    /// ```
    /// use zugyelmas::prelude::*;
    /// type Number = FixedI8<4>; // from -8 to 7.9375
    /// let number = Number::from_num::<f64>;
    ///
    /// assert_eq!(number(1.5).strict_shr(1), number(0.75));
    /// assert_eq!(number(-0.0625).strict_shr(1), number(-0.0625)); // -0.03125, rounded down
    /// ```
    ///
    /// ```should_panic
    /// # use zugyelmas::prelude::*;
    /// # type Number = FixedI8<4>; // from -8 to 7.9375
    /// # let number = Number::from_num::<f64>;
    /// # std::panic::set_hook(Box::new(|_| {}));
    /// number(1.5).strict_shr(9); // the shift is not below 8
    /// ```
    ///
    /// # Panics
    ///
    /// Panics unless the shift is below the width.
    ///
    /// # Proved
    ///
    /// ```text
    /// requires { rhs < Self.BITS }
    /// ensures { Self.number result ≡ floor_quotient (Self.number self) (2 ^ rhs) }
    /// ```
    ///
    /// Definitions: [`floor_quotient`].
    ///
    /// [`floor_quotient`]: crate::definitions::word_quotient
    #[must_use]
    fn strict_shr(self, rhs: u32) -> Self;
}

impl<T: Word, const F: u32> Strict for Fixed<T, F> {
    #[track_caller]
    fn strict_neg(self) -> Self {
        exact_number(neg_of(self.bits))
    }

    #[track_caller]
    fn strict_add(self, rhs: Self) -> Self {
        exact_number(add_of(self.bits, rhs.bits))
    }

    #[track_caller]
    fn strict_sub(self, rhs: Self) -> Self {
        exact_number(sub_of(self.bits, rhs.bits))
    }

    #[track_caller]
    fn strict_mul(self, rhs: Self) -> Self {
        const {
            assert!(
                F <= T::BITS,
                "precondition: the fraction F is at most the width"
            )
        };
        exact_number(mul_of(self.bits, rhs.bits, F))
    }

    #[track_caller]
    fn strict_div(self, rhs: Self) -> Self {
        const {
            assert!(
                F <= T::BITS,
                "precondition: the fraction F is at most the width"
            )
        };
        assert!(rhs.bits != T::ZERO, "precondition: the divisor is not 0");
        exact_number(div_of(self.bits, rhs.bits, F))
    }

    #[track_caller]
    fn strict_recip(self) -> Self {
        const {
            assert!(
                F <= T::BITS,
                "precondition: the fraction F is at most the width"
            )
        };
        assert!(self.bits != T::ZERO, "precondition: the divisor is not 0");
        exact_number(recip_of(self.bits, F))
    }

    #[track_caller]
    fn strict_rem(self, rhs: Self) -> Self {
        assert!(rhs.bits != T::ZERO, "precondition: the divisor is not 0");
        exact_number(rem_of(self.bits, rhs.bits))
    }

    #[track_caller]
    fn strict_rem_euclid(self, rhs: Self) -> Self {
        assert!(rhs.bits != T::ZERO, "precondition: the divisor is not 0");
        exact_number(rem_euclid_of(self.bits, rhs.bits))
    }

    #[track_caller]
    fn strict_div_euclid(self, rhs: Self) -> Self {
        const {
            assert!(
                F <= T::BITS,
                "precondition: the fraction F is at most the width"
            )
        };
        assert!(rhs.bits != T::ZERO, "precondition: the divisor is not 0");
        exact_number(div_euclid_of(self.bits, rhs.bits, F))
    }

    #[track_caller]
    fn strict_dist(self, other: Self) -> Self {
        exact_number(dist_of(self.bits, other.bits))
    }

    #[track_caller]
    fn strict_next_multiple_of(self, other: Self) -> Self {
        assert!(other.bits != T::ZERO, "precondition: the divisor is not 0");
        exact_number(next_multiple_of_of(self.bits, other.bits))
    }

    #[track_caller]
    fn strict_mul_int(self, rhs: T) -> Self {
        exact_number(mul_int_of(self.bits, rhs))
    }

    #[track_caller]
    fn strict_div_int(self, rhs: T) -> Self {
        assert!(rhs != T::ZERO, "precondition: the divisor is not 0");
        exact_number(div_int_of(self.bits, rhs))
    }

    #[track_caller]
    fn strict_rem_int(self, rhs: T) -> Self {
        const {
            assert!(
                F <= T::BITS,
                "precondition: the fraction F is at most the width"
            )
        };
        assert!(rhs != T::ZERO, "precondition: the divisor is not 0");
        exact_number(rem_int_of(self.bits, rhs, F))
    }

    #[track_caller]
    fn strict_rem_euclid_int(self, rhs: T) -> Self {
        const {
            assert!(
                F <= T::BITS,
                "precondition: the fraction F is at most the width"
            )
        };
        assert!(rhs != T::ZERO, "precondition: the divisor is not 0");
        exact_number(rem_euclid_int_of(self.bits, rhs, F))
    }

    #[track_caller]
    fn strict_div_euclid_int(self, rhs: T) -> Self {
        const {
            assert!(
                F <= T::BITS,
                "precondition: the fraction F is at most the width"
            )
        };
        assert!(rhs != T::ZERO, "precondition: the divisor is not 0");
        exact_number(div_euclid_int_of(self.bits, rhs, F))
    }

    #[track_caller]
    fn strict_sqrt(self) -> Self {
        const {
            assert!(
                F <= T::BITS,
                "precondition: the fraction F is at most the width"
            )
        };
        assert!(
            !self.bits.is_below_zero(),
            "precondition: the number is not below 0"
        );
        exact_number(sqrt_of(self.bits, F))
    }

    #[track_caller]
    fn strict_shl(self, rhs: u32) -> Self {
        assert!(rhs < T::BITS, "precondition: the shift is below the width");
        self.unbounded_shl(rhs)
    }

    #[track_caller]
    fn strict_shr(self, rhs: u32) -> Self {
        assert!(rhs < T::BITS, "precondition: the shift is below the width");
        self.unbounded_shr(rhs)
    }
}

/// The `strict_` forms of signed numbers.
pub trait StrictSigned: Strict {
    /// Returns the magnitude. Precondition: it fits.
    ///
    /// # Examples
    ///
    /// ```
    /// use zugyelmas::prelude::*;
    /// type Number = FixedI8<4>; // from -8 to 7.9375
    /// let number = Number::from_num::<f64>;
    ///
    /// assert_eq!(number(-1.5).strict_abs(), number(1.5));
    /// ```
    ///
    /// ```should_panic
    /// # use zugyelmas::prelude::*;
    /// # type Number = FixedI8<4>; // from -8 to 7.9375
    /// # let number = Number::from_num::<f64>;
    /// # std::panic::set_hook(Box::new(|_| {}));
    /// Number::MIN.strict_abs(); // 8 does not fit
    /// ```
    ///
    /// # Panics
    ///
    /// Panics unless the number fits.
    ///
    /// # Proved
    ///
    /// ```text
    /// requires { InRange Self.SIGNED Self.BITS (exact_abs (Self.number self)) }
    /// ensures { Self.number result ≡ exact_abs (Self.number self) }
    /// ```
    ///
    /// Definitions: [`InRange`], [`exact_abs`].
    ///
    /// [`InRange`]: crate::definitions::word_format
    /// [`exact_abs`]: crate::definitions::kernel_rows
    #[must_use]
    fn strict_abs(self) -> Self;

    /// Returns the sign as a number: 1, 0 or -1. Precondition: it fits.
    ///
    /// # Examples
    ///
    /// ```
    /// use zugyelmas::prelude::*;
    /// type Number = FixedI8<4>; // from -8 to 7.9375
    /// let number = Number::from_num::<f64>;
    ///
    /// assert_eq!(number(-2.5).strict_signum(), number(-1.0));
    /// assert_eq!(number(0.0).strict_signum(), number(0.0));
    /// ```
    ///
    /// ```should_panic
    /// # use zugyelmas::prelude::*;
    /// # type Number = FixedI8<4>; // from -8 to 7.9375
    /// # let number = Number::from_num::<f64>;
    /// # std::panic::set_hook(Box::new(|_| {}));
    /// FixedI8::<7>::from_bits(64).strict_signum(); // 1 does not fit
    /// ```
    ///
    /// # Compile errors
    ///
    /// Compiles only if the fraction F is at most the width.
    ///
    /// # Panics
    ///
    /// Panics unless the number fits.
    ///
    /// # Proved
    ///
    /// ```text
    /// requires fraction { Self.FRACTION ≤ Self.BITS }
    /// requires fits { InRange Self.SIGNED Self.BITS
    ///     (exact_signum (Self.number self) Self.FRACTION) }
    /// ensures { Self.number result ≡ exact_signum (Self.number self) Self.FRACTION }
    /// ```
    ///
    /// Definitions: [`InRange`], [`exact_signum`].
    ///
    /// [`InRange`]: crate::definitions::word_format
    /// [`exact_signum`]: crate::definitions::kernel_rows
    #[must_use]
    fn strict_signum(self) -> Self;

    /// Returns the sum with an unsigned number. Precondition: it fits.
    ///
    /// # Examples
    ///
    /// ```
    /// use zugyelmas::prelude::*;
    /// let number = FixedI8::<4>::from_num::<f64>; // from -8 to 7.9375
    /// let unsigned = FixedU8::<4>::from_num::<f64>; // from 0 to 15.9375
    ///
    /// assert_eq!(number(-1.5).strict_add_unsigned(unsigned(9.0)), number(7.5));
    /// ```
    ///
    /// ```should_panic
    /// # use zugyelmas::prelude::*;
    /// # let number = FixedI8::<4>::from_num::<f64>; // from -8 to 7.9375
    /// # let unsigned = FixedU8::<4>::from_num::<f64>; // from 0 to 15.9375
    /// # std::panic::set_hook(Box::new(|_| {}));
    /// number(1.5).strict_add_unsigned(unsigned(9.0)); // 10.5 does not fit
    /// ```
    ///
    /// # Panics
    ///
    /// Panics unless the number fits.
    ///
    /// # Proved
    ///
    /// ```text
    /// requires { InRange Self.SIGNED Self.BITS
    ///     (Self.number self +ℤ Self.Unsigned.number rhs) }
    /// ensures { Self.number result ≡ Self.number self +ℤ Self.Unsigned.number rhs }
    /// ```
    ///
    /// Definitions: [`InRange`].
    ///
    /// [`InRange`]: crate::definitions::word_format
    #[must_use]
    fn strict_add_unsigned(self, rhs: Self::Unsigned) -> Self;

    /// Returns the number minus an unsigned number. Precondition: it fits.
    ///
    /// # Examples
    ///
    /// ```
    /// use zugyelmas::prelude::*;
    /// let number = FixedI8::<4>::from_num::<f64>; // from -8 to 7.9375
    /// let unsigned = FixedU8::<4>::from_num::<f64>; // from 0 to 15.9375
    ///
    /// assert_eq!(number(1.5).strict_sub_unsigned(unsigned(9.0)), number(-7.5));
    /// ```
    ///
    /// ```should_panic
    /// # use zugyelmas::prelude::*;
    /// # let number = FixedI8::<4>::from_num::<f64>; // from -8 to 7.9375
    /// # let unsigned = FixedU8::<4>::from_num::<f64>; // from 0 to 15.9375
    /// # std::panic::set_hook(Box::new(|_| {}));
    /// number(-1.5).strict_sub_unsigned(unsigned(9.0)); // -10.5 does not fit
    /// ```
    ///
    /// # Panics
    ///
    /// Panics unless the number fits.
    ///
    /// # Proved
    ///
    /// ```text
    /// requires { InRange Self.SIGNED Self.BITS
    ///     (Self.number self -ℤ Self.Unsigned.number rhs) }
    /// ensures { Self.number result ≡ Self.number self -ℤ Self.Unsigned.number rhs }
    /// ```
    ///
    /// Definitions: [`InRange`].
    ///
    /// [`InRange`]: crate::definitions::word_format
    #[must_use]
    fn strict_sub_unsigned(self, rhs: Self::Unsigned) -> Self;
}

impl<T: SignedWord, const F: u32> StrictSigned for Fixed<T, F> {
    #[track_caller]
    fn strict_abs(self) -> Self {
        exact_number(abs_of(self.bits))
    }

    #[track_caller]
    fn strict_signum(self) -> Self {
        const {
            assert!(
                F <= T::BITS,
                "precondition: the fraction F is at most the width"
            )
        };
        exact_number(signum_of(self.bits, F))
    }

    #[track_caller]
    fn strict_add_unsigned(self, rhs: Fixed<T::Unsigned, F>) -> Self {
        exact_number(mixed_add_of(self.bits, rhs.bits))
    }

    #[track_caller]
    fn strict_sub_unsigned(self, rhs: Fixed<T::Unsigned, F>) -> Self {
        exact_number(mixed_sub_of(self.bits, rhs.bits))
    }
}

/// The `strict_` forms of unsigned numbers.
pub trait StrictUnsigned: Strict {
    /// Returns the least number, not below this one, whose bits are a power of two. Precondition: it fits.
    ///
    /// # Examples
    ///
    /// ```
    /// use zugyelmas::prelude::*;
    /// let number = FixedI8::<4>::from_num::<f64>; // from -8 to 7.9375
    /// let unsigned = FixedU8::<4>::from_num::<f64>; // from 0 to 15.9375
    ///
    /// // from 40 bits to 64 bits
    /// assert_eq!(unsigned(2.5).strict_next_power_of_two(), unsigned(4.0));
    /// // the least power of two of the bits is 1
    /// assert_eq!(unsigned(0.0).strict_next_power_of_two(), unsigned(0.0625));
    /// ```
    ///
    /// ```should_panic
    /// # use zugyelmas::prelude::*;
    /// # let number = FixedI8::<4>::from_num::<f64>; // from -8 to 7.9375
    /// # let unsigned = FixedU8::<4>::from_num::<f64>; // from 0 to 15.9375
    /// # std::panic::set_hook(Box::new(|_| {}));
    /// unsigned(9.0).strict_next_power_of_two(); // 16 does not fit
    /// ```
    ///
    /// # Panics
    ///
    /// Panics unless the number fits.
    ///
    /// # Proved
    ///
    /// ```text
    /// requires { InRange Self.SIGNED Self.BITS (exact_next_power_of_two (Self.number self)) }
    /// ensures { Self.number result ≡ exact_next_power_of_two (Self.number self) }
    /// ```
    ///
    /// Definitions: [`InRange`], [`exact_next_power_of_two`].
    ///
    /// [`InRange`]: crate::definitions::word_format
    /// [`exact_next_power_of_two`]: crate::definitions::kernel_rows
    #[must_use]
    fn strict_next_power_of_two(self) -> Self;

    /// Returns the sum with a signed number. Precondition: it fits.
    ///
    /// # Examples
    ///
    /// ```
    /// use zugyelmas::prelude::*;
    /// let number = FixedI8::<4>::from_num::<f64>; // from -8 to 7.9375
    /// let unsigned = FixedU8::<4>::from_num::<f64>; // from 0 to 15.9375
    ///
    /// assert_eq!(unsigned(9.0).strict_add_signed(number(-1.5)), unsigned(7.5));
    /// ```
    ///
    /// ```should_panic
    /// # use zugyelmas::prelude::*;
    /// # let number = FixedI8::<4>::from_num::<f64>; // from -8 to 7.9375
    /// # let unsigned = FixedU8::<4>::from_num::<f64>; // from 0 to 15.9375
    /// # std::panic::set_hook(Box::new(|_| {}));
    /// unsigned(1.5).strict_add_signed(number(-2.0)); // -0.5 does not fit
    /// ```
    ///
    /// # Panics
    ///
    /// Panics unless the number fits.
    ///
    /// # Proved
    ///
    /// ```text
    /// requires { InRange Self.SIGNED Self.BITS
    ///     (Self.number self +ℤ Self.Signed.number rhs) }
    /// ensures { Self.number result ≡ Self.number self +ℤ Self.Signed.number rhs }
    /// ```
    ///
    /// Definitions: [`InRange`].
    ///
    /// [`InRange`]: crate::definitions::word_format
    #[must_use]
    fn strict_add_signed(self, rhs: Self::Signed) -> Self;

    /// Returns the number minus a signed number. Precondition: it fits.
    ///
    /// # Examples
    ///
    /// ```
    /// use zugyelmas::prelude::*;
    /// let number = FixedI8::<4>::from_num::<f64>; // from -8 to 7.9375
    /// let unsigned = FixedU8::<4>::from_num::<f64>; // from 0 to 15.9375
    ///
    /// assert_eq!(unsigned(9.0).strict_sub_signed(number(-1.5)), unsigned(10.5));
    /// ```
    ///
    /// ```should_panic
    /// # use zugyelmas::prelude::*;
    /// # let number = FixedI8::<4>::from_num::<f64>; // from -8 to 7.9375
    /// # let unsigned = FixedU8::<4>::from_num::<f64>; // from 0 to 15.9375
    /// # std::panic::set_hook(Box::new(|_| {}));
    /// unsigned(1.5).strict_sub_signed(number(2.0)); // -0.5 does not fit
    /// ```
    ///
    /// # Panics
    ///
    /// Panics unless the number fits.
    ///
    /// # Proved
    ///
    /// ```text
    /// requires { InRange Self.SIGNED Self.BITS
    ///     (Self.number self -ℤ Self.Signed.number rhs) }
    /// ensures { Self.number result ≡ Self.number self -ℤ Self.Signed.number rhs }
    /// ```
    ///
    /// Definitions: [`InRange`].
    ///
    /// [`InRange`]: crate::definitions::word_format
    #[must_use]
    fn strict_sub_signed(self, rhs: Self::Signed) -> Self;
}

impl<T: UnsignedWord, const F: u32> StrictUnsigned for Fixed<T, F> {
    #[track_caller]
    fn strict_next_power_of_two(self) -> Self {
        exact_number(next_power_of_two_of(self.bits))
    }

    #[track_caller]
    fn strict_add_signed(self, rhs: Fixed<T::Signed, F>) -> Self {
        exact_number(mixed_add_of(self.bits, rhs.bits))
    }

    #[track_caller]
    fn strict_sub_signed(self, rhs: Fixed<T::Signed, F>) -> Self {
        exact_number(mixed_sub_of(self.bits, rhs.bits))
    }
}
