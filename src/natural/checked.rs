// Made by `make package` of crates/fixed_natural/src/checked.rt, which is proved: changes go there.

//! The `checked_` calls of logarithms and powers. The Rust crate `fixed` does not have them.

use crate::natural::exponentials::exp_of;
use crate::natural::logarithms::{ln_of, log10_of};
use crate::natural::numbers::is_above_zero;
use crate::natural::powers::pow_of;
use crate::stopping::{Fixed, Held, Number, checked_number};
use crate::word::{RawWord, Word};

/// The `checked_` calls of logarithms and powers. If the result does not fit, they return `None`. Operands and results
/// are in units of `2^-F`. Precondition of each call: F is at most the width.
pub trait CheckedNatural: Number {
    /// Returns the natural logarithm, rounded down, or `None` if the number is not above 0 or the result does not fit.
    ///
    /// For the result r and the exact logarithm l in units, `r - 2^-k <= l < r + 1`, where k is 24 on words of up to 32
    /// bits and 32 on words of 64 bits. So r is the logarithm rounded down, or one unit more if l is at most `2^-k`
    /// below a whole number. The logarithm of 1 is exactly 0.
    ///
    /// # Examples
    ///
    /// ```
    /// use zugyelmas::prelude::*;
    /// type Number = FixedI8<4>; // from -8 to 7.9375
    /// let number = Number::from_num::<f64>;
    /// type Small = FixedI8<7>; // from -1 to 127/128
    /// let least = Small::from_bits(1); // 1/128
    ///
    /// assert_eq!(number(1.0).checked_ln(), Some(Number::ZERO));
    /// assert_eq!(number(2.0).checked_ln(), Some(number(0.6875))); // 0.6931.., rounded down
    /// // -2.7725.., rounded down
    /// assert_eq!(number(0.0625).checked_ln(), Some(number(-2.8125)));
    /// assert_eq!(Number::ZERO.checked_ln(), None); // the number is not above 0
    /// assert_eq!(least.checked_ln(), None); // -4.8520.. does not fit
    /// ```
    ///
    /// # Compile errors
    ///
    /// Compiles only if the fraction F is at most the width.
    ///
    /// # Proved
    ///
    /// ```text
    /// requires { Self.FRACTION ≤ Self.BITS }
    /// ensures none { Self.number self ≤ℤ pos 0 → result ≡ None }
    /// ensures ln { pos 0 <ℤ Self.number self
    ///     → (r : ℤ) × IsLn (log_room Self.BITS) (Self.number self) Self.FRACTION r
    ///     × (option_map Self.number result ≡ checked Self.SIGNED Self.BITS (Some r)) }
    /// ```
    ///
    /// Definitions: [`checked`], [`IsLn`], [`log_room`].
    ///
    /// [`checked`]: crate::definitions::word_policies
    /// [`IsLn`]: crate::definitions::natural_logs
    /// [`log_room`]: crate::definitions::natural_logs
    #[must_use]
    fn checked_ln(self) -> Option<Self>;

    /// Returns the logarithm to the base 10, rounded down, or `None` if the number is not above 0 or the result does
    /// not fit.
    ///
    /// For the result r and the exact logarithm l in units, `r - 2^-k <= l < r + 1`, where k is 24 on words of up to 32
    /// bits and 32 on words of 64 bits. So r is the logarithm rounded down, or one unit more if l is at most `2^-k`
    /// below a whole number. The logarithm of a power of 10 is exact.
    ///
    /// # Examples
    ///
    /// ```
    /// use zugyelmas::prelude::*;
    /// type Number = FixedI8<4>; // from -8 to 7.9375
    /// let number = Number::from_num::<f64>;
    /// type Small = FixedI8<7>; // from -1 to 127/128
    /// let least = Small::from_bits(1); // 1/128
    ///
    /// // 0.3010.., rounded down
    /// assert_eq!(number(2.0).checked_log10(), Some(number(0.25)));
    /// // exact
    /// assert_eq!(FixedI32::<16>::from_num(1000).checked_log10(), Some(FixedI32::from_num(3)));
    /// assert_eq!(Number::ZERO.checked_log10(), None); // the number is not above 0
    /// assert_eq!(least.checked_log10(), None); // -2.1072.. does not fit
    /// ```
    ///
    /// # Compile errors
    ///
    /// Compiles only if the fraction F is at most the width.
    ///
    /// # Proved
    ///
    /// ```text
    /// requires { Self.FRACTION ≤ Self.BITS }
    /// ensures none { Self.number self ≤ℤ pos 0 → result ≡ None }
    /// ensures log10 { pos 0 <ℤ Self.number self
    ///     → (r : ℤ) × IsLog10 (log_room Self.BITS) (Self.number self) Self.FRACTION r
    ///     × (option_map Self.number result ≡ checked Self.SIGNED Self.BITS (Some r)) }
    /// ```
    ///
    /// Definitions: [`checked`], [`IsLog10`], [`log_room`].
    ///
    /// [`checked`]: crate::definitions::word_policies
    /// [`IsLog10`]: crate::definitions::natural_logs
    /// [`log_room`]: crate::definitions::natural_logs
    #[must_use]
    fn checked_log10(self) -> Option<Self>;

    /// Returns e to the power of the number, rounded down, or `None` if it does not fit.
    ///
    /// For the result r and the exact power p in units, `r <= p 2^(2^-61)` and `p < r + 1`. On words of up to 32 bits,
    /// r is the power rounded down, or one unit more if p is less than `2^-29` below a whole number. On words of 64
    /// bits, r is at most 6 units more than the power rounded down. e to the power of 0 is exactly 1.
    ///
    /// # Examples
    ///
    /// ```
    /// use zugyelmas::prelude::*;
    /// type Number = FixedI8<4>; // from -8 to 7.9375
    /// let number = Number::from_num::<f64>;
    ///
    /// assert_eq!(Number::ZERO.checked_exp(), Some(number(1.0)));
    /// // 2.7182.., rounded down
    /// assert_eq!(number(1.0).checked_exp(), Some(number(2.6875)));
    /// // 0.3678.., rounded down
    /// assert_eq!(number(-1.0).checked_exp(), Some(number(0.3125)));
    /// assert_eq!(number(2.125).checked_exp(), None); // 8.3728.. does not fit
    /// ```
    ///
    /// # Compile errors
    ///
    /// Compiles only if the fraction F is at most the width.
    ///
    /// # Proved
    ///
    /// ```text
    /// requires { Self.FRACTION ≤ Self.BITS }
    /// ensures { (r : ℤ) × IsExp (Self.number self) Self.FRACTION r
    ///     × (option_map Self.number result ≡ checked Self.SIGNED Self.BITS (Some r)) }
    /// ```
    ///
    /// Definitions: [`checked`].
    ///
    /// [`checked`]: crate::definitions::word_policies
    #[must_use]
    fn checked_exp(self) -> Option<Self>;

    /// Returns the number to the power of `exponent`, rounded down, or `None` if the number is not above 0 or the
    /// result does not fit.
    ///
    /// For the result r and the exact power p in units, `r <= p 2^(2^-55)` and `p < r + 1`. On words of up to 32 bits,
    /// r is the power rounded down, or one unit more if p is less than `2^-23` below a whole number. On words of 64
    /// bits, r is at most 355 units more than the power rounded down. A power that is a whole number of up to `2^54`
    /// units is exact.
    ///
    /// # Examples
    ///
    /// ```
    /// use zugyelmas::prelude::*;
    /// type Number = FixedI8<4>; // from -8 to 7.9375
    /// let number = Number::from_num::<f64>;
    ///
    /// assert_eq!(number(1.5).checked_pow(number(3.0)), Some(number(3.375))); // exact
    /// // 1.4142.., rounded down
    /// assert_eq!(number(2.0).checked_pow(number(0.5)), Some(number(1.375)));
    /// assert_eq!(number(2.0).checked_pow(number(-1.0)), Some(number(0.5)));
    /// assert_eq!(number(2.0).checked_pow(number(3.0)), None); // 8 does not fit
    /// assert_eq!(number(-2.0).checked_pow(number(2.0)), None); // the number is not above 0
    /// ```
    ///
    /// # Compile errors
    ///
    /// Compiles only if the fraction F is at most the width.
    ///
    /// # Proved
    ///
    /// ```text
    /// requires { Self.FRACTION ≤ Self.BITS }
    /// ensures none { Self.number self ≤ℤ pos 0 → result ≡ None }
    /// ensures pow { pos 0 <ℤ Self.number self
    ///     → (r : ℤ) × IsPow (Self.number self) (Self.number exponent) Self.FRACTION r
    ///     × (option_map Self.number result ≡ checked Self.SIGNED Self.BITS (Some r)) }
    /// ```
    ///
    /// Definitions: [`checked`], [`IsPow`].
    ///
    /// [`checked`]: crate::definitions::word_policies
    /// [`IsPow`]: crate::definitions::natural_pows
    #[must_use]
    fn checked_pow(self, exponent: Self) -> Option<Self>;
}

impl<T: Word, const F: u32> CheckedNatural for Fixed<T, F> {
    #[track_caller]
    fn checked_ln(self) -> Option<Self> {
        const {
            assert!(
                F <= T::BITS,
                "precondition: the fraction F is at most the width"
            )
        };
        if !is_above_zero(self.bits) {
            return None;
        }
        checked_number(ln_of(self.bits, F))
    }

    #[track_caller]
    fn checked_log10(self) -> Option<Self> {
        const {
            assert!(
                F <= T::BITS,
                "precondition: the fraction F is at most the width"
            )
        };
        if !is_above_zero(self.bits) {
            return None;
        }
        checked_number(log10_of(self.bits, F))
    }

    #[track_caller]
    fn checked_exp(self) -> Option<Self> {
        const {
            assert!(
                F <= T::BITS,
                "precondition: the fraction F is at most the width"
            )
        };
        checked_number(exp_of(self.bits, F))
    }

    #[track_caller]
    fn checked_pow(self, exponent: Self) -> Option<Self> {
        const {
            assert!(
                F <= T::BITS,
                "precondition: the fraction F is at most the width"
            )
        };
        if !is_above_zero(self.bits) {
            return None;
        }
        checked_number(pow_of(self.bits, exponent.bits, F))
    }
}
