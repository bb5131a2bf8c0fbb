// Made by `make package` of crates/fixed_natural/src/saturating.rt, which is proved: changes go there.

//! The `saturating_` calls of logarithms and powers. The Rust crate `fixed` does not have them.

use crate::natural::exponentials::exp_of;
use crate::natural::logarithms::{ln_of, log10_of};
use crate::natural::powers::pow_of;
use crate::stopping::{Fixed, Held, Number, saturating_number};
use crate::word::{RawWord, Word};

/// The `saturating_` calls of logarithms and powers. If the result does not fit, they return the nearest number that
/// does. Operands and results are in units of `2^-F`. Precondition of each call: F is at most the width.
pub trait SaturatingNatural: Number {
    /// Returns the natural logarithm, rounded down, or the nearest number if it does not fit. Precondition: the number
    /// is above 0.
    ///
    /// If the result r fits, then for the exact logarithm l in units, `r - 2^-k <= l < r + 1`, where k is 24 on words
    /// of up to 32 bits and 32 on words of 64 bits. So r is the logarithm rounded down, or one unit more if l is at
    /// most `2^-k` below a whole number. The logarithm of 1 is exactly 0.
    ///
    /// # Examples
    ///
    /// ```
    /// use zugyelmas::prelude::*;
    /// type Number = FixedI8<4>; // from -8 to 7.9375
    /// let number = Number::from_num::<f64>;
    /// type Small = FixedI8<7>; // from -1 to 127/128
    /// let least = Small::from_bits(1); // 1/128
    ///
    /// assert_eq!(number(2.0).saturating_ln(), number(0.6875)); // 0.6931.., rounded down
    /// assert_eq!(least.saturating_ln(), Small::MIN); // -4.8520.. does not fit
    /// ```
    ///
    /// ```should_panic
    /// # use zugyelmas::prelude::*;
    /// # type Number = FixedI8<4>; // from -8 to 7.9375
    /// # let number = Number::from_num::<f64>;
    /// # type Small = FixedI8<7>; // from -1 to 127/128
    /// # let least = Small::from_bits(1); // 1/128
    /// # std::panic::set_hook(Box::new(|_| {}));
    /// Number::ZERO.saturating_ln(); // the number is not above 0
    /// ```
    ///
    /// # Compile errors
    ///
    /// Compiles only if the fraction F is at most the width.
    ///
    /// # Panics
    ///
    /// Panics unless the number is above 0.
    ///
    /// # Proved
    ///
    /// ```text
    /// requires fraction { Self.FRACTION ≤ Self.BITS }
    /// requires positive { pos 0 <ℤ Self.number self }
    /// ensures { (r : ℤ) × IsLn (log_room Self.BITS) (Self.number self) Self.FRACTION r
    ///     × (Some (Self.number result) ≡ saturating Self.SIGNED Self.BITS (Some r)) }
    /// ```
    ///
    /// Definitions: [`saturating`], [`IsLn`], [`log_room`].
    ///
    /// [`saturating`]: crate::definitions::word_policies
    /// [`IsLn`]: crate::definitions::natural_logs
    /// [`log_room`]: crate::definitions::natural_logs
    #[must_use]
    fn saturating_ln(self) -> Self;

    /// Returns the logarithm to the base 10, rounded down, or the nearest number if it does not fit. Precondition: the
    /// number is above 0.
    ///
    /// If the result r fits, then for the exact logarithm l in units, `r - 2^-k <= l < r + 1`, where k is 24 on words
    /// of up to 32 bits and 32 on words of 64 bits. So r is the logarithm rounded down, or one unit more if l is at
    /// most `2^-k` below a whole number. The logarithm of a power of 10 is exact.
    ///
    /// # Examples
    ///
    /// ```
    /// use zugyelmas::prelude::*;
    /// type Number = FixedI8<4>; // from -8 to 7.9375
    /// let number = Number::from_num::<f64>;
    /// type Small = FixedI8<7>; // from -1 to 127/128
    /// let least = Small::from_bits(1); // 1/128
    ///
    /// assert_eq!(number(2.0).saturating_log10(), number(0.25)); // 0.3010.., rounded down
    /// assert_eq!(least.saturating_log10(), Small::MIN); // -2.1072.. does not fit
    /// ```
    ///
    /// ```should_panic
    /// # use zugyelmas::prelude::*;
    /// # type Number = FixedI8<4>; // from -8 to 7.9375
    /// # let number = Number::from_num::<f64>;
    /// # type Small = FixedI8<7>; // from -1 to 127/128
    /// # let least = Small::from_bits(1); // 1/128
    /// # std::panic::set_hook(Box::new(|_| {}));
    /// Number::ZERO.saturating_log10(); // the number is not above 0
    /// ```
    ///
    /// # Compile errors
    ///
    /// Compiles only if the fraction F is at most the width.
    ///
    /// # Panics
    ///
    /// Panics unless the number is above 0.
    ///
    /// # Proved
    ///
    /// ```text
    /// requires fraction { Self.FRACTION ≤ Self.BITS }
    /// requires positive { pos 0 <ℤ Self.number self }
    /// ensures { (r : ℤ) × IsLog10 (log_room Self.BITS) (Self.number self) Self.FRACTION r
    ///     × (Some (Self.number result) ≡ saturating Self.SIGNED Self.BITS (Some r)) }
    /// ```
    ///
    /// Definitions: [`saturating`], [`IsLog10`], [`log_room`].
    ///
    /// [`saturating`]: crate::definitions::word_policies
    /// [`IsLog10`]: crate::definitions::natural_logs
    /// [`log_room`]: crate::definitions::natural_logs
    #[must_use]
    fn saturating_log10(self) -> Self;

    /// Returns e to the power of the number, rounded down, or the largest number if it does not fit.
    ///
    /// If the result r fits, then for the exact power p in units, `r <= p 2^(2^-61)` and `p < r + 1`. On words of up to
    /// 32 bits, r is the power rounded down, or one unit more if p is less than `2^-29` below a whole number. On words
    /// of 64 bits, r is at most 6 units more than the power rounded down. e to the power of 0 is exactly 1.
    ///
    /// # Examples
    ///
    /// ```
    /// use zugyelmas::prelude::*;
    /// type Number = FixedI8<4>; // from -8 to 7.9375
    /// let number = Number::from_num::<f64>;
    ///
    /// assert_eq!(number(1.0).saturating_exp(), number(2.6875)); // 2.7182.., rounded down
    /// assert_eq!(number(3.0).saturating_exp(), Number::MAX); // 20.0855.. does not fit
    /// ```
    ///
    /// # Compile errors
    ///
    /// Compiles only if the fraction F is at most the width.
    ///
    /// # Proved
    ///
    /// ```text
    /// requires { Self.FRACTION ≤ Self.BITS }
    /// ensures { (r : ℤ) × IsExp (Self.number self) Self.FRACTION r
    ///     × (Some (Self.number result) ≡ saturating Self.SIGNED Self.BITS (Some r)) }
    /// ```
    ///
    /// Definitions: [`saturating`].
    ///
    /// [`saturating`]: crate::definitions::word_policies
    #[must_use]
    fn saturating_exp(self) -> Self;

    /// Returns the number to the power of `exponent`, rounded down, or the largest number if it does not fit.
    /// Precondition: the number is above 0.
    ///
    /// If the result r fits, then for the exact power p in units, `r <= p 2^(2^-55)` and `p < r + 1`. On words of up to
    /// 32 bits, r is the power rounded down, or one unit more if p is less than `2^-23` below a whole number. On words
    /// of 64 bits, r is at most 355 units more than the power rounded down. A power that is a whole number of up to
    /// `2^54` units is exact.
    ///
    /// # Examples
    ///
    /// ```
    /// use zugyelmas::prelude::*;
    /// type Number = FixedI8<4>; // from -8 to 7.9375
    /// let number = Number::from_num::<f64>;
    ///
    /// // 1.4142.., rounded down
    /// assert_eq!(number(2.0).saturating_pow(number(0.5)), number(1.375));
    /// assert_eq!(number(2.0).saturating_pow(number(3.0)), Number::MAX); // 8 does not fit
    /// ```
    ///
    /// ```should_panic
    /// # use zugyelmas::prelude::*;
    /// # type Number = FixedI8<4>; // from -8 to 7.9375
    /// # let number = Number::from_num::<f64>;
    /// # std::panic::set_hook(Box::new(|_| {}));
    /// Number::ZERO.saturating_pow(number(1.0)); // the number is not above 0
    /// ```
    ///
    /// # Compile errors
    ///
    /// Compiles only if the fraction F is at most the width.
    ///
    /// # Panics
    ///
    /// Panics unless the number is above 0.
    ///
    /// # Proved
    ///
    /// ```text
    /// requires fraction { Self.FRACTION ≤ Self.BITS }
    /// requires positive { pos 0 <ℤ Self.number self }
    /// ensures { (r : ℤ) × IsPow (Self.number self) (Self.number exponent) Self.FRACTION r
    ///     × (Some (Self.number result) ≡ saturating Self.SIGNED Self.BITS (Some r)) }
    /// ```
    ///
    /// Definitions: [`saturating`], [`IsPow`].
    ///
    /// [`saturating`]: crate::definitions::word_policies
    /// [`IsPow`]: crate::definitions::natural_pows
    #[must_use]
    fn saturating_pow(self, exponent: Self) -> Self;
}

impl<T: Word, const F: u32> SaturatingNatural for Fixed<T, F> {
    #[track_caller]
    fn saturating_ln(self) -> Self {
        const {
            assert!(
                F <= T::BITS,
                "precondition: the fraction F is at most the width"
            )
        };
        assert!(
            !self.bits.is_below_zero() && self.bits.magnitude() > 0,
            "precondition: the number is above 0"
        );
        saturating_number(ln_of(self.bits, F))
    }

    #[track_caller]
    fn saturating_log10(self) -> Self {
        const {
            assert!(
                F <= T::BITS,
                "precondition: the fraction F is at most the width"
            )
        };
        assert!(
            !self.bits.is_below_zero() && self.bits.magnitude() > 0,
            "precondition: the number is above 0"
        );
        saturating_number(log10_of(self.bits, F))
    }

    #[track_caller]
    fn saturating_exp(self) -> Self {
        const {
            assert!(
                F <= T::BITS,
                "precondition: the fraction F is at most the width"
            )
        };
        saturating_number(exp_of(self.bits, F))
    }

    #[track_caller]
    fn saturating_pow(self, exponent: Self) -> Self {
        const {
            assert!(
                F <= T::BITS,
                "precondition: the fraction F is at most the width"
            )
        };
        assert!(
            !self.bits.is_below_zero() && self.bits.magnitude() > 0,
            "precondition: the number is above 0"
        );
        saturating_number(pow_of(self.bits, exponent.bits, F))
    }
}
