// Made by `make package` of crates/fixed_natural/src/strict.rt, which is proved: changes go there.

//! The `strict_` calls of logarithms and powers. The Rust crate `fixed` does not have them.

use crate::natural::exponentials::exp_of;
use crate::natural::logarithms::{ln_of, log10_of};
use crate::natural::powers::pow_of;
use crate::stopping::{Fixed, Held, Number, exact_number};
use crate::word::{RawWord, Word};

/// The `strict_` calls of logarithms and powers. Preconditions of each call: the result fits, and F is at most the
/// width. Operands and results are in units of `2^-F`.
pub trait StrictNatural: Number {
    /// Returns the natural logarithm, rounded down. Precondition: the number is above 0.
    ///
    /// For the result r and the exact logarithm l in units, `r - 2^-k <= l < r + 1`, where k is 24 on words of up to 32
    /// bits and 32 on words of 64 bits. So r is the logarithm rounded down, or one unit more if l is at most `2^-k`
    /// below a whole number. The logarithm of 1 is exactly 0. Precondition: every r that these statements allow fits.
    ///
    /// # Examples
    ///
    /// ```
    /// use zugyelmas::prelude::*;
    /// type Number = FixedI8<4>; // from -8 to 7.9375
    /// let number = Number::from_num::<f64>;
    /// type Small = FixedI8<7>; // from -1 to 127/128
    /// let least = Small::from_bits(1); // 1/128
    ///
    /// assert_eq!(number(2.0).strict_ln(), number(0.6875)); // 0.6931.., rounded down
    /// ```
    ///
    /// ```should_panic
    /// # use zugyelmas::prelude::*;
    /// # type Number = FixedI8<4>; // from -8 to 7.9375
    /// # let number = Number::from_num::<f64>;
    /// # type Small = FixedI8<7>; // from -1 to 127/128
    /// # let least = Small::from_bits(1); // 1/128
    /// # std::panic::set_hook(Box::new(|_| {}));
    /// least.strict_ln(); // -4.8520.. does not fit
    /// ```
    ///
    /// ```should_panic
    /// # use zugyelmas::prelude::*;
    /// # type Number = FixedI8<4>; // from -8 to 7.9375
    /// # let number = Number::from_num::<f64>;
    /// # type Small = FixedI8<7>; // from -1 to 127/128
    /// # let least = Small::from_bits(1); // 1/128
    /// # std::panic::set_hook(Box::new(|_| {}));
    /// Number::ZERO.strict_ln(); // the number is not above 0
    /// ```
    ///
    /// # Compile errors
    ///
    /// Compiles only if the fraction F is at most the width.
    ///
    /// # Panics
    ///
    /// Panics unless the number is above 0, and the logarithm fits.
    ///
    /// # Proved
    ///
    /// ```text
    /// requires fraction { Self.FRACTION ≤ Self.BITS }
    /// requires positive { pos 0 <ℤ Self.number self }
    /// requires fits { (r : ℤ) → IsLn (log_room Self.BITS) (Self.number self) Self.FRACTION r
    ///     → InRange Self.SIGNED Self.BITS r }
    /// ensures { IsLn (log_room Self.BITS) (Self.number self) Self.FRACTION (Self.number result) }
    /// ```
    ///
    /// Definitions: [`InRange`], [`IsLn`], [`log_room`].
    ///
    /// [`InRange`]: crate::definitions::word_format
    /// [`IsLn`]: crate::definitions::natural_logs
    /// [`log_room`]: crate::definitions::natural_logs
    #[must_use]
    fn strict_ln(self) -> Self;

    /// Returns the logarithm to the base 10, rounded down. Precondition: the number is above 0.
    ///
    /// For the result r and the exact logarithm l in units, `r - 2^-k <= l < r + 1`, where k is 24 on words of up to 32
    /// bits and 32 on words of 64 bits. So r is the logarithm rounded down, or one unit more if l is at most `2^-k`
    /// below a whole number. The logarithm of a power of 10 is exact. Precondition: every r that these statements allow
    /// fits.
    ///
    /// # Examples
    ///
    /// ```
    /// use zugyelmas::prelude::*;
    /// type Number = FixedI8<4>; // from -8 to 7.9375
    /// let number = Number::from_num::<f64>;
    /// type Small = FixedI8<7>; // from -1 to 127/128
    /// let least = Small::from_bits(1); // 1/128
    ///
    /// assert_eq!(number(2.0).strict_log10(), number(0.25)); // 0.3010.., rounded down
    /// ```
    ///
    /// ```should_panic
    /// # use zugyelmas::prelude::*;
    /// # type Number = FixedI8<4>; // from -8 to 7.9375
    /// # let number = Number::from_num::<f64>;
    /// # type Small = FixedI8<7>; // from -1 to 127/128
    /// # let least = Small::from_bits(1); // 1/128
    /// # std::panic::set_hook(Box::new(|_| {}));
    /// least.strict_log10(); // -2.1072.. does not fit
    /// ```
    ///
    /// ```should_panic
    /// # use zugyelmas::prelude::*;
    /// # type Number = FixedI8<4>; // from -8 to 7.9375
    /// # let number = Number::from_num::<f64>;
    /// # type Small = FixedI8<7>; // from -1 to 127/128
    /// # let least = Small::from_bits(1); // 1/128
    /// # std::panic::set_hook(Box::new(|_| {}));
    /// Number::ZERO.strict_log10(); // the number is not above 0
    /// ```
    ///
    /// # Compile errors
    ///
    /// Compiles only if the fraction F is at most the width.
    ///
    /// # Panics
    ///
    /// Panics unless the number is above 0, and the logarithm fits.
    ///
    /// # Proved
    ///
    /// ```text
    /// requires fraction { Self.FRACTION ≤ Self.BITS }
    /// requires positive { pos 0 <ℤ Self.number self }
    /// requires fits { (r : ℤ) → IsLog10 (log_room Self.BITS) (Self.number self) Self.FRACTION r
    ///     → InRange Self.SIGNED Self.BITS r }
    /// ensures { IsLog10 (log_room Self.BITS) (Self.number self) Self.FRACTION (Self.number result) }
    /// ```
    ///
    /// Definitions: [`InRange`], [`IsLog10`], [`log_room`].
    ///
    /// [`InRange`]: crate::definitions::word_format
    /// [`IsLog10`]: crate::definitions::natural_logs
    /// [`log_room`]: crate::definitions::natural_logs
    #[must_use]
    fn strict_log10(self) -> Self;

    /// Returns e to the power of the number, rounded down.
    ///
    /// For the result r and the exact power p in units, `r <= p 2^(2^-61)` and `p < r + 1`. On words of up to 32 bits,
    /// r is the power rounded down, or one unit more if p is less than `2^-29` below a whole number. On words of 64
    /// bits, r is at most 6 units more than the power rounded down. e to the power of 0 is exactly 1. Precondition:
    /// every r that these statements allow fits.
    ///
    /// # Examples
    ///
    /// ```
    /// use zugyelmas::prelude::*;
    /// type Number = FixedI8<4>; // from -8 to 7.9375
    /// let number = Number::from_num::<f64>;
    ///
    /// assert_eq!(number(1.0).strict_exp(), number(2.6875)); // 2.7182.., rounded down
    /// ```
    ///
    /// ```should_panic
    /// # use zugyelmas::prelude::*;
    /// # type Number = FixedI8<4>; // from -8 to 7.9375
    /// # let number = Number::from_num::<f64>;
    /// # std::panic::set_hook(Box::new(|_| {}));
    /// number(3.0).strict_exp(); // 20.0855.. does not fit
    /// ```
    ///
    /// # Compile errors
    ///
    /// Compiles only if the fraction F is at most the width.
    ///
    /// # Panics
    ///
    /// Panics unless the power fits.
    ///
    /// # Proved
    ///
    /// ```text
    /// requires fraction { Self.FRACTION ≤ Self.BITS }
    /// requires fits { (r : ℤ) → IsExp (Self.number self) Self.FRACTION r
    ///     → InRange Self.SIGNED Self.BITS r }
    /// ensures { IsExp (Self.number self) Self.FRACTION (Self.number result) }
    /// ```
    ///
    /// Definitions: [`InRange`].
    ///
    /// [`InRange`]: crate::definitions::word_format
    #[must_use]
    fn strict_exp(self) -> Self;

    /// Returns the number to the power of `exponent`, rounded down. Precondition: the number is above 0.
    ///
    /// For the result r and the exact power p in units, `r <= p 2^(2^-55)` and `p < r + 1`. On words of up to 32 bits,
    /// r is the power rounded down, or one unit more if p is less than `2^-23` below a whole number. On words of 64
    /// bits, r is at most 355 units more than the power rounded down. A power that is a whole number of up to `2^54`
    /// units is exact. Precondition: every r that these statements allow fits.
    ///
    /// # Examples
    ///
    /// ```
    /// use zugyelmas::prelude::*;
    /// type Number = FixedI8<4>; // from -8 to 7.9375
    /// let number = Number::from_num::<f64>;
    ///
    /// // 1.4142.., rounded down
    /// assert_eq!(number(2.0).strict_pow(number(0.5)), number(1.375));
    /// ```
    ///
    /// ```should_panic
    /// # use zugyelmas::prelude::*;
    /// # type Number = FixedI8<4>; // from -8 to 7.9375
    /// # let number = Number::from_num::<f64>;
    /// # std::panic::set_hook(Box::new(|_| {}));
    /// number(2.0).strict_pow(number(3.0)); // 8 does not fit
    /// ```
    ///
    /// ```should_panic
    /// # use zugyelmas::prelude::*;
    /// # type Number = FixedI8<4>; // from -8 to 7.9375
    /// # let number = Number::from_num::<f64>;
    /// # std::panic::set_hook(Box::new(|_| {}));
    /// Number::ZERO.strict_pow(number(1.0)); // the number is not above 0
    /// ```
    ///
    /// # Compile errors
    ///
    /// Compiles only if the fraction F is at most the width.
    ///
    /// # Panics
    ///
    /// Panics unless the number is above 0, and the power fits.
    ///
    /// # Proved
    ///
    /// ```text
    /// requires fraction { Self.FRACTION ≤ Self.BITS }
    /// requires positive { pos 0 <ℤ Self.number self }
    /// requires fits { (r : ℤ) → IsPow (Self.number self) (Self.number exponent) Self.FRACTION r
    ///     → InRange Self.SIGNED Self.BITS r }
    /// ensures { IsPow (Self.number self) (Self.number exponent) Self.FRACTION (Self.number result) }
    /// ```
    ///
    /// Definitions: [`InRange`], [`IsPow`].
    ///
    /// [`InRange`]: crate::definitions::word_format
    /// [`IsPow`]: crate::definitions::natural_pows
    #[must_use]
    fn strict_pow(self, exponent: Self) -> Self;
}

impl<T: Word, const F: u32> StrictNatural for Fixed<T, F> {
    #[track_caller]
    fn strict_ln(self) -> Self {
        const {
            assert!(
                F <= T::BITS,
                "precondition: the fraction F is at most the width"
            )
        };
        assert!(
            !self.bits.is_below_zero() && self.bits.magnitude() > 0,
            "precondition: the number is above 0"
        );
        exact_number(ln_of(self.bits, F))
    }

    #[track_caller]
    fn strict_log10(self) -> Self {
        const {
            assert!(
                F <= T::BITS,
                "precondition: the fraction F is at most the width"
            )
        };
        assert!(
            !self.bits.is_below_zero() && self.bits.magnitude() > 0,
            "precondition: the number is above 0"
        );
        exact_number(log10_of(self.bits, F))
    }

    #[track_caller]
    fn strict_exp(self) -> Self {
        const {
            assert!(
                F <= T::BITS,
                "precondition: the fraction F is at most the width"
            )
        };
        exact_number(exp_of(self.bits, F))
    }

    #[track_caller]
    fn strict_pow(self, exponent: Self) -> Self {
        const {
            assert!(
                F <= T::BITS,
                "precondition: the fraction F is at most the width"
            )
        };
        assert!(
            !self.bits.is_below_zero() && self.bits.magnitude() > 0,
            "precondition: the number is above 0"
        );
        exact_number(pow_of(self.bits, exponent.bits, F))
    }
}
