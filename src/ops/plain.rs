// Made by `make package` of crates/fixed_ops/src/plain.rt, which is proved: changes go there.

//! Operations by their plain names. Their precondition is that the exact result fits.

use crate::kernel::{
    abs_of, dist_of, div_euclid_int_of, div_euclid_of, mixed_add_of, mixed_sub_of,
    next_multiple_of_of, next_power_of_two_of, recip_of, rem_euclid_int_of, rem_euclid_of,
    signum_of, sqrt_of,
};
use crate::num::{Fixed, Held, Number, exact_number};
use crate::word::{RawWord, SignedWord, UnsignedWord, Word};

/// The plain forms of all numbers. Precondition of each call: the exact result fits. Results are in units of `2^-F`,
/// and integer operands are whole numbers. Precondition of each call that uses F: F is at most the width.
pub trait Plain: Number {
    /// Returns 1 over the number, rounded toward zero. Preconditions: the number is not 0, and the result fits.
    ///
    /// # Examples
    ///
    /// ```
    /// use zugyelmas::prelude::*;
    /// type Number = FixedI8<4>; // from -8 to 7.9375
    /// let number = Number::from_num::<f64>;
    ///
    /// assert_eq!(number(2.0).recip(), number(0.5));
    /// assert_eq!(number(-3.0).recip(), number(-0.3125)); // -1/3, rounded toward zero
    /// ```
    ///
    /// ```should_panic
    /// # use zugyelmas::prelude::*;
    /// # type Number = FixedI8<4>; // from -8 to 7.9375
    /// # let number = Number::from_num::<f64>;
    /// # std::panic::set_hook(Box::new(|_| {}));
    /// number(0.0).recip(); // the divisor is 0
    /// ```
    ///
    /// # Compile errors
    ///
    /// Compiles only if the fraction F is at most the width.
    ///
    /// # Panics
    ///
    /// Panics unless the divisor is not 0.
    ///
    /// With debug assertions, panics unless the number fits. Without them, the result is wrapped.
    ///
    /// # Proved
    ///
    /// ```text
    /// requires fraction { Self.FRACTION ≤ Self.BITS }
    /// requires divisor { Self.number self ≢ pos 0 }
    /// requires fits { InRange Self.SIGNED Self.BITS
    ///     (exact_recip (Self.number self) Self.FRACTION) }
    /// ensures { Self.number result ≡ exact_recip (Self.number self) Self.FRACTION }
    /// ```
    ///
    /// Definitions: [`InRange`], [`exact_recip`].
    ///
    /// [`InRange`]: crate::definitions::word_format
    /// [`exact_recip`]: crate::definitions::kernel_rows
    #[must_use]
    fn recip(self) -> Self;

    /// Returns the Euclidean remainder, which is at least 0. It always fits. Precondition: the divisor is not 0.
    ///
    /// # Examples
    ///
    /// ```
    /// use zugyelmas::prelude::*;
    /// type Number = FixedI8<4>; // from -8 to 7.9375
    /// let number = Number::from_num::<f64>;
    ///
    /// assert_eq!(number(5.5).rem_euclid(number(2.0)), number(1.5));
    /// assert_eq!(number(-5.5).rem_euclid(number(2.0)), number(0.5)); // never below 0
    /// ```
    ///
    /// ```should_panic
    /// # use zugyelmas::prelude::*;
    /// # type Number = FixedI8<4>; // from -8 to 7.9375
    /// # let number = Number::from_num::<f64>;
    /// # std::panic::set_hook(Box::new(|_| {}));
    /// number(5.5).rem_euclid(number(0.0)); // the divisor is 0
    /// ```
    ///
    /// # Panics
    ///
    /// Panics unless the divisor is not 0.
    ///
    /// With debug assertions, panics unless the number fits. Without them, the result is wrapped.
    ///
    /// # Proved
    ///
    /// ```text
    /// requires divisor { Self.number rhs ≢ pos 0 }
    /// requires fits { InRange Self.SIGNED Self.BITS
    ///     (euclidean_remainder (Self.number self) (Self.number rhs)) }
    /// ensures { Self.number result ≡ euclidean_remainder (Self.number self) (Self.number rhs) }
    /// ```
    ///
    /// Definitions: [`InRange`], [`euclidean_remainder`].
    ///
    /// [`InRange`]: crate::definitions::word_format
    /// [`euclidean_remainder`]: crate::definitions::word_quotient
    #[must_use]
    fn rem_euclid(self, rhs: Self) -> Self;

    /// Returns the Euclidean quotient, which is a whole number. Preconditions: the divisor is not 0, and the result
    /// fits.
    ///
    /// # Examples
    ///
    /// ```
    /// use zugyelmas::prelude::*;
    /// type Number = FixedI8<4>; // from -8 to 7.9375
    /// let number = Number::from_num::<f64>;
    ///
    /// assert_eq!(number(5.5).div_euclid(number(2.0)), number(2.0));
    /// // the remainder is 0.5
    /// assert_eq!(number(-5.5).div_euclid(number(2.0)), number(-3.0));
    /// ```
    ///
    /// ```should_panic
    /// # use zugyelmas::prelude::*;
    /// # type Number = FixedI8<4>; // from -8 to 7.9375
    /// # let number = Number::from_num::<f64>;
    /// # std::panic::set_hook(Box::new(|_| {}));
    /// number(5.5).div_euclid(number(0.0)); // the divisor is 0
    /// ```
    ///
    /// # Compile errors
    ///
    /// Compiles only if the fraction F is at most the width.
    ///
    /// # Panics
    ///
    /// Panics unless the divisor is not 0.
    ///
    /// With debug assertions, panics unless the number fits. Without them, the result is wrapped.
    ///
    /// # Proved
    ///
    /// ```text
    /// requires fraction { Self.FRACTION ≤ Self.BITS }
    /// requires divisor { Self.number rhs ≢ pos 0 }
    /// requires fits { InRange Self.SIGNED Self.BITS
    ///     (exact_div_euclid (Self.number self) (Self.number rhs) Self.FRACTION) }
    /// ensures { Self.number result
    ///     ≡ exact_div_euclid (Self.number self) (Self.number rhs) Self.FRACTION }
    /// ```
    ///
    /// Definitions: [`InRange`], [`exact_div_euclid`].
    ///
    /// [`InRange`]: crate::definitions::word_format
    /// [`exact_div_euclid`]: crate::definitions::kernel_rows
    #[must_use]
    fn div_euclid(self, rhs: Self) -> Self;

    /// Returns the distance between the numbers. Precondition: it fits.
    ///
    /// # Examples
    ///
    /// ```
    /// use zugyelmas::prelude::*;
    /// type Number = FixedI8<4>; // from -8 to 7.9375
    /// let number = Number::from_num::<f64>;
    ///
    /// assert_eq!(number(1.5).dist(number(-2.0)), number(3.5));
    /// ```
    ///
    /// # Panics
    ///
    /// With debug assertions, panics unless the number fits. Without them, the result is wrapped.
    ///
    /// # Proved
    ///
    /// ```text
    /// requires { InRange Self.SIGNED Self.BITS
    ///     (exact_abs (Self.number self -ℤ Self.number other)) }
    /// ensures { Self.number result ≡ exact_abs (Self.number self -ℤ Self.number other) }
    /// ```
    ///
    /// Definitions: [`InRange`], [`exact_abs`].
    ///
    /// [`InRange`]: crate::definitions::word_format
    /// [`exact_abs`]: crate::definitions::kernel_rows
    #[must_use]
    fn dist(self, other: Self) -> Self;

    /// Returns the next multiple of `other`, upward if `other` is positive and downward if it is negative.
    /// Preconditions: `other` is not 0, and the result fits.
    ///
    /// # Examples
    ///
    /// ```
    /// use zugyelmas::prelude::*;
    /// type Number = FixedI8<4>; // from -8 to 7.9375
    /// let number = Number::from_num::<f64>;
    ///
    /// assert_eq!(number(2.5).next_multiple_of(number(1.0)), number(3.0));
    /// // downward, by the sign of the divisor
    /// assert_eq!(number(2.5).next_multiple_of(number(-1.0)), number(2.0));
    /// ```
    ///
    /// ```should_panic
    /// # use zugyelmas::prelude::*;
    /// # type Number = FixedI8<4>; // from -8 to 7.9375
    /// # let number = Number::from_num::<f64>;
    /// # std::panic::set_hook(Box::new(|_| {}));
    /// number(2.5).next_multiple_of(number(0.0)); // the divisor is 0
    /// ```
    ///
    /// # Panics
    ///
    /// Panics unless the divisor is not 0.
    ///
    /// With debug assertions, panics unless the number fits. Without them, the result is wrapped.
    ///
    /// # Proved
    ///
    /// ```text
    /// requires divisor { Self.number other ≢ pos 0 }
    /// requires fits { InRange Self.SIGNED Self.BITS
    ///     (exact_next_multiple_of (Self.number self) (Self.number other)) }
    /// ensures { Self.number result
    ///     ≡ exact_next_multiple_of (Self.number self) (Self.number other) }
    /// ```
    ///
    /// Definitions: [`InRange`], [`exact_next_multiple_of`].
    ///
    /// [`InRange`]: crate::definitions::word_format
    /// [`exact_next_multiple_of`]: crate::definitions::kernel_rows
    #[must_use]
    fn next_multiple_of(self, other: Self) -> Self;

    /// Returns the Euclidean remainder by an integer. Preconditions: the divisor is not 0, and the result fits.
    ///
    /// # Examples
    ///
    /// ```
    /// use zugyelmas::prelude::*;
    /// type Number = FixedI8<4>; // from -8 to 7.9375
    /// let number = Number::from_num::<f64>;
    ///
    /// assert_eq!(number(5.5).rem_euclid_int(2), number(1.5));
    /// assert_eq!(number(-5.5).rem_euclid_int(2), number(0.5)); // never below 0
    /// ```
    ///
    /// ```should_panic
    /// # use zugyelmas::prelude::*;
    /// # type Number = FixedI8<4>; // from -8 to 7.9375
    /// # let number = Number::from_num::<f64>;
    /// # std::panic::set_hook(Box::new(|_| {}));
    /// number(5.5).rem_euclid_int(0); // the divisor is 0
    /// ```
    ///
    /// # Compile errors
    ///
    /// Compiles only if the fraction F is at most the width.
    ///
    /// # Panics
    ///
    /// Panics unless the divisor is not 0.
    ///
    /// With debug assertions, panics unless the number fits. Without them, the result is wrapped.
    ///
    /// # Proved
    ///
    /// ```text
    /// requires fraction { Self.FRACTION ≤ Self.BITS }
    /// requires divisor { Self.Bits.value rhs ≢ pos 0 }
    /// requires fits { InRange Self.SIGNED Self.BITS
    ///     (euclidean_remainder (Self.number self) (units (Self.Bits.value rhs) Self.FRACTION)) }
    /// ensures { Self.number result
    ///     ≡ euclidean_remainder (Self.number self) (units (Self.Bits.value rhs) Self.FRACTION) }
    /// ```
    ///
    /// Definitions: [`InRange`], [`euclidean_remainder`], [`units`].
    ///
    /// [`InRange`]: crate::definitions::word_format
    /// [`euclidean_remainder`]: crate::definitions::word_quotient
    /// [`units`]: crate::definitions::kernel_rows
    #[must_use]
    fn rem_euclid_int(self, rhs: Self::Bits) -> Self;

    /// Returns the Euclidean quotient by an integer, which is a whole number. Preconditions: the divisor is not 0,
    /// and the result fits.
    ///
    /// # Examples
    ///
    /// ```
    /// use zugyelmas::prelude::*;
    /// type Number = FixedI8<4>; // from -8 to 7.9375
    /// let number = Number::from_num::<f64>;
    ///
    /// assert_eq!(number(5.5).div_euclid_int(2), number(2.0));
    /// assert_eq!(number(-5.5).div_euclid_int(2), number(-3.0)); // the remainder is 0.5
    /// ```
    ///
    /// ```should_panic
    /// # use zugyelmas::prelude::*;
    /// # type Number = FixedI8<4>; // from -8 to 7.9375
    /// # let number = Number::from_num::<f64>;
    /// # std::panic::set_hook(Box::new(|_| {}));
    /// number(5.5).div_euclid_int(0); // the divisor is 0
    /// ```
    ///
    /// # Compile errors
    ///
    /// Compiles only if the fraction F is at most the width.
    ///
    /// # Panics
    ///
    /// Panics unless the divisor is not 0.
    ///
    /// With debug assertions, panics unless the number fits. Without them, the result is wrapped.
    ///
    /// # Proved
    ///
    /// ```text
    /// requires fraction { Self.FRACTION ≤ Self.BITS }
    /// requires divisor { Self.Bits.value rhs ≢ pos 0 }
    /// requires fits { InRange Self.SIGNED Self.BITS
    ///     (exact_div_euclid (Self.number self) (units (Self.Bits.value rhs) Self.FRACTION) Self.FRACTION) }
    /// ensures { Self.number result
    ///     ≡ exact_div_euclid (Self.number self) (units (Self.Bits.value rhs) Self.FRACTION) Self.FRACTION }
    /// ```
    ///
    /// Definitions: [`InRange`], [`exact_div_euclid`], [`units`].
    ///
    /// [`InRange`]: crate::definitions::word_format
    /// [`exact_div_euclid`]: crate::definitions::kernel_rows
    /// [`units`]: crate::definitions::kernel_rows
    #[must_use]
    fn div_euclid_int(self, rhs: Self::Bits) -> Self;

    /// Returns the square root, rounded down. Preconditions: the number is not negative, and the root fits.
    ///
    /// # Examples
    ///
    /// ```
    /// use zugyelmas::prelude::*;
    /// type Number = FixedI8<4>; // from -8 to 7.9375
    /// let number = Number::from_num::<f64>;
    ///
    /// assert_eq!(number(2.25).sqrt(), number(1.5));
    /// assert_eq!(number(2.0).sqrt(), number(1.375)); // 1.414.., rounded down
    /// ```
    ///
    /// ```should_panic
    /// # use zugyelmas::prelude::*;
    /// # type Number = FixedI8<4>; // from -8 to 7.9375
    /// # let number = Number::from_num::<f64>;
    /// # std::panic::set_hook(Box::new(|_| {}));
    /// number(-1.0).sqrt(); // no root
    /// ```
    ///
    /// # Compile errors
    ///
    /// Compiles only if the fraction F is at most the width.
    ///
    /// # Panics
    ///
    /// Panics unless the number is not below 0.
    ///
    /// With debug assertions, panics unless the number fits. Without them, the result is wrapped.
    ///
    /// # Proved
    ///
    /// ```text
    /// requires fraction { Self.FRACTION ≤ Self.BITS }
    /// requires sign { pos 0 ≤ℤ Self.number self }
    /// requires fits { InRange Self.SIGNED Self.BITS
    ///     (root_of (Self.number self) Self.FRACTION) }
    /// ensures { Self.number result ≡ root_of (Self.number self) Self.FRACTION }
    /// ```
    ///
    /// Definitions: [`InRange`], [`root_of`].
    ///
    /// [`InRange`]: crate::definitions::word_format
    /// [`root_of`]: crate::definitions::root_root
    #[must_use]
    fn sqrt(self) -> Self;
}

impl<T: Word, const F: u32> Plain for Fixed<T, F> {
    #[track_caller]
    fn recip(self) -> Self {
        const {
            assert!(
                F <= T::BITS,
                "precondition: the fraction F is at most the width"
            )
        };
        assert!(self.bits != T::ZERO, "precondition: the divisor is not 0");
        exact_number(recip_of(self.bits, F))
    }

    #[track_caller]
    fn rem_euclid(self, rhs: Self) -> Self {
        assert!(rhs.bits != T::ZERO, "precondition: the divisor is not 0");
        exact_number(rem_euclid_of(self.bits, rhs.bits))
    }

    #[track_caller]
    fn div_euclid(self, rhs: Self) -> Self {
        const {
            assert!(
                F <= T::BITS,
                "precondition: the fraction F is at most the width"
            )
        };
        assert!(rhs.bits != T::ZERO, "precondition: the divisor is not 0");
        exact_number(div_euclid_of(self.bits, rhs.bits, F))
    }

    #[track_caller]
    fn dist(self, other: Self) -> Self {
        exact_number(dist_of(self.bits, other.bits))
    }

    #[track_caller]
    fn next_multiple_of(self, other: Self) -> Self {
        assert!(other.bits != T::ZERO, "precondition: the divisor is not 0");
        exact_number(next_multiple_of_of(self.bits, other.bits))
    }

    #[track_caller]
    fn rem_euclid_int(self, rhs: T) -> Self {
        const {
            assert!(
                F <= T::BITS,
                "precondition: the fraction F is at most the width"
            )
        };
        assert!(rhs != T::ZERO, "precondition: the divisor is not 0");
        exact_number(rem_euclid_int_of(self.bits, rhs, F))
    }

    #[track_caller]
    fn div_euclid_int(self, rhs: T) -> Self {
        const {
            assert!(
                F <= T::BITS,
                "precondition: the fraction F is at most the width"
            )
        };
        assert!(rhs != T::ZERO, "precondition: the divisor is not 0");
        exact_number(div_euclid_int_of(self.bits, rhs, F))
    }

    #[track_caller]
    fn sqrt(self) -> Self {
        const {
            assert!(
                F <= T::BITS,
                "precondition: the fraction F is at most the width"
            )
        };
        assert!(
            !self.bits.is_below_zero(),
            "precondition: the number is not below 0"
        );
        exact_number(sqrt_of(self.bits, F))
    }
}

/// The plain forms of signed numbers.
pub trait PlainSigned: Plain {
    /// Returns the magnitude. Precondition: it fits.
    ///
    /// # Examples
    ///
    /// ```
    /// use zugyelmas::prelude::*;
    /// type Number = FixedI8<4>; // from -8 to 7.9375
    /// let number = Number::from_num::<f64>;
    ///
    /// assert_eq!(number(-1.5).abs(), number(1.5));
    /// ```
    ///
    /// # Panics
    ///
    /// With debug assertions, panics unless the number fits. Without them, the result is wrapped.
    ///
    /// # Proved
    ///
    /// ```text
    /// requires { InRange Self.SIGNED Self.BITS (exact_abs (Self.number self)) }
    /// ensures { Self.number result ≡ exact_abs (Self.number self) }
    /// ```
    ///
    /// Definitions: [`InRange`], [`exact_abs`].
    ///
    /// [`InRange`]: crate::definitions::word_format
    /// [`exact_abs`]: crate::definitions::kernel_rows
    #[must_use]
    fn abs(self) -> Self;

    /// Returns the sign as a number: 1, 0 or -1. Precondition: it fits.
    ///
    /// # Examples
    ///
    /// ```
    /// use zugyelmas::prelude::*;
    /// type Number = FixedI8<4>; // from -8 to 7.9375
    /// let number = Number::from_num::<f64>;
    ///
    /// assert_eq!(number(-2.5).signum(), number(-1.0));
    /// assert_eq!(number(0.0).signum(), number(0.0));
    /// ```
    ///
    /// # Compile errors
    ///
    /// Compiles only if the fraction F is at most the width.
    ///
    /// # Panics
    ///
    /// With debug assertions, panics unless the number fits. Without them, the result is wrapped.
    ///
    /// # Proved
    ///
    /// ```text
    /// requires fraction { Self.FRACTION ≤ Self.BITS }
    /// requires fits { InRange Self.SIGNED Self.BITS
    ///     (exact_signum (Self.number self) Self.FRACTION) }
    /// ensures { Self.number result ≡ exact_signum (Self.number self) Self.FRACTION }
    /// ```
    ///
    /// Definitions: [`InRange`], [`exact_signum`].
    ///
    /// [`InRange`]: crate::definitions::word_format
    /// [`exact_signum`]: crate::definitions::kernel_rows
    #[must_use]
    fn signum(self) -> Self;

    /// Returns the sum with an unsigned number. Precondition: it fits.
    ///
    /// # Examples
    ///
    /// ```
    /// use zugyelmas::prelude::*;
    /// let number = FixedI8::<4>::from_num::<f64>; // from -8 to 7.9375
    /// let unsigned = FixedU8::<4>::from_num::<f64>; // from 0 to 15.9375
    ///
    /// assert_eq!(number(-1.5).add_unsigned(unsigned(9.0)), number(7.5));
    /// ```
    ///
    /// # Panics
    ///
    /// With debug assertions, panics unless the number fits. Without them, the result is wrapped.
    ///
    /// # Proved
    ///
    /// ```text
    /// requires { InRange Self.SIGNED Self.BITS
    ///     (Self.number self +ℤ Self.Unsigned.number rhs) }
    /// ensures { Self.number result ≡ Self.number self +ℤ Self.Unsigned.number rhs }
    /// ```
    ///
    /// Definitions: [`InRange`].
    ///
    /// [`InRange`]: crate::definitions::word_format
    #[must_use]
    fn add_unsigned(self, rhs: Self::Unsigned) -> Self;

    /// Returns the number minus an unsigned number. Precondition: it fits.
    ///
    /// # Examples
    ///
    /// ```
    /// use zugyelmas::prelude::*;
    /// let number = FixedI8::<4>::from_num::<f64>; // from -8 to 7.9375
    /// let unsigned = FixedU8::<4>::from_num::<f64>; // from 0 to 15.9375
    ///
    /// assert_eq!(number(1.5).sub_unsigned(unsigned(9.0)), number(-7.5));
    /// ```
    ///
    /// # Panics
    ///
    /// With debug assertions, panics unless the number fits. Without them, the result is wrapped.
    ///
    /// # Proved
    ///
    /// ```text
    /// requires { InRange Self.SIGNED Self.BITS
    ///     (Self.number self -ℤ Self.Unsigned.number rhs) }
    /// ensures { Self.number result ≡ Self.number self -ℤ Self.Unsigned.number rhs }
    /// ```
    ///
    /// Definitions: [`InRange`].
    ///
    /// [`InRange`]: crate::definitions::word_format
    #[must_use]
    fn sub_unsigned(self, rhs: Self::Unsigned) -> Self;
}

impl<T: SignedWord, const F: u32> PlainSigned for Fixed<T, F> {
    #[track_caller]
    fn abs(self) -> Self {
        exact_number(abs_of(self.bits))
    }

    #[track_caller]
    fn signum(self) -> Self {
        const {
            assert!(
                F <= T::BITS,
                "precondition: the fraction F is at most the width"
            )
        };
        exact_number(signum_of(self.bits, F))
    }

    #[track_caller]
    fn add_unsigned(self, rhs: Fixed<T::Unsigned, F>) -> Self {
        exact_number(mixed_add_of(self.bits, rhs.bits))
    }

    #[track_caller]
    fn sub_unsigned(self, rhs: Fixed<T::Unsigned, F>) -> Self {
        exact_number(mixed_sub_of(self.bits, rhs.bits))
    }
}

/// The plain forms of unsigned numbers.
pub trait PlainUnsigned: Plain {
    /// Returns the least number, not below this one, whose bits are a power of two. Precondition: it fits.
    ///
    /// # Examples
    ///
    /// ```
    /// use zugyelmas::prelude::*;
    /// let number = FixedI8::<4>::from_num::<f64>; // from -8 to 7.9375
    /// let unsigned = FixedU8::<4>::from_num::<f64>; // from 0 to 15.9375
    ///
    /// // from 40 bits to 64 bits
    /// assert_eq!(unsigned(2.5).next_power_of_two(), unsigned(4.0));
    /// // the least power of two of the bits is 1
    /// assert_eq!(unsigned(0.0).next_power_of_two(), unsigned(0.0625));
    /// ```
    ///
    /// # Panics
    ///
    /// With debug assertions, panics unless the number fits. Without them, the result is wrapped.
    ///
    /// # Proved
    ///
    /// ```text
    /// requires { InRange Self.SIGNED Self.BITS (exact_next_power_of_two (Self.number self)) }
    /// ensures { Self.number result ≡ exact_next_power_of_two (Self.number self) }
    /// ```
    ///
    /// Definitions: [`InRange`], [`exact_next_power_of_two`].
    ///
    /// [`InRange`]: crate::definitions::word_format
    /// [`exact_next_power_of_two`]: crate::definitions::kernel_rows
    #[must_use]
    fn next_power_of_two(self) -> Self;

    /// Returns the sum with a signed number. Precondition: it fits.
    ///
    /// # Examples
    ///
    /// ```
    /// use zugyelmas::prelude::*;
    /// let number = FixedI8::<4>::from_num::<f64>; // from -8 to 7.9375
    /// let unsigned = FixedU8::<4>::from_num::<f64>; // from 0 to 15.9375
    ///
    /// assert_eq!(unsigned(9.0).add_signed(number(-1.5)), unsigned(7.5));
    /// ```
    ///
    /// # Panics
    ///
    /// With debug assertions, panics unless the number fits. Without them, the result is wrapped.
    ///
    /// # Proved
    ///
    /// ```text
    /// requires { InRange Self.SIGNED Self.BITS
    ///     (Self.number self +ℤ Self.Signed.number rhs) }
    /// ensures { Self.number result ≡ Self.number self +ℤ Self.Signed.number rhs }
    /// ```
    ///
    /// Definitions: [`InRange`].
    ///
    /// [`InRange`]: crate::definitions::word_format
    #[must_use]
    fn add_signed(self, rhs: Self::Signed) -> Self;

    /// Returns the number minus a signed number. Precondition: it fits.
    ///
    /// # Examples
    ///
    /// ```
    /// use zugyelmas::prelude::*;
    /// let number = FixedI8::<4>::from_num::<f64>; // from -8 to 7.9375
    /// let unsigned = FixedU8::<4>::from_num::<f64>; // from 0 to 15.9375
    ///
    /// assert_eq!(unsigned(9.0).sub_signed(number(-1.5)), unsigned(10.5));
    /// ```
    ///
    /// # Panics
    ///
    /// With debug assertions, panics unless the number fits. Without them, the result is wrapped.
    ///
    /// # Proved
    ///
    /// ```text
    /// requires { InRange Self.SIGNED Self.BITS
    ///     (Self.number self -ℤ Self.Signed.number rhs) }
    /// ensures { Self.number result ≡ Self.number self -ℤ Self.Signed.number rhs }
    /// ```
    ///
    /// Definitions: [`InRange`].
    ///
    /// [`InRange`]: crate::definitions::word_format
    #[must_use]
    fn sub_signed(self, rhs: Self::Signed) -> Self;
}

impl<T: UnsignedWord, const F: u32> PlainUnsigned for Fixed<T, F> {
    #[track_caller]
    fn next_power_of_two(self) -> Self {
        exact_number(next_power_of_two_of(self.bits))
    }

    #[track_caller]
    fn add_signed(self, rhs: Fixed<T::Signed, F>) -> Self {
        exact_number(mixed_add_of(self.bits, rhs.bits))
    }

    #[track_caller]
    fn sub_signed(self, rhs: Fixed<T::Signed, F>) -> Self {
        exact_number(mixed_sub_of(self.bits, rhs.bits))
    }
}
