// Made by `make package` of crates/fixed_math/src/checked.rt, which is proved: changes go there.

//! The `checked_` calls of elementary functions. The Rust crate `fixed` does not have them.

use crate::elementary::{exp2_of, hypot_of, log2_of, recip_sqrt_of};
use crate::math::numbers::is_above_zero;
use crate::stopping::{Fixed, Held, Number, checked_number};
use crate::word::{RawWord, Word};

/// The `checked_` calls of elementary functions. If the result does not fit, they return `None`. Results are in units
/// of `2^-F`. Precondition of each call that uses F: F is at most the width.
pub trait CheckedMath: Number {
    /// Returns the length of the pair `(self, other)`, rounded down, or `None` if it does not fit.
    ///
    /// # Examples
    ///
    /// ```
    /// use zugyelmas::prelude::*;
    /// type Number = FixedI8<4>; // from -8 to 7.9375
    /// let number = Number::from_num::<f64>;
    ///
    /// assert_eq!(number(3.0).checked_hypot(number(-4.0)), Some(number(5.0)));
    /// // 2.7041.., rounded down
    /// assert_eq!(number(1.5).checked_hypot(number(2.25)), Some(number(2.6875)));
    /// assert_eq!(number(6.0).checked_hypot(number(6.0)), None); // 8.4375 does not fit
    /// ```
    ///
    /// # Proved
    ///
    /// ```text
    /// ensures { option_map Self.number result ≡ checked Self.SIGNED Self.BITS
    ///     (Some (exact_hypot (Self.number self) (Self.number other))) }
    /// ```
    ///
    /// Definitions: [`checked`], [`exact_hypot`].
    ///
    /// [`checked`]: crate::definitions::word_policies
    /// [`exact_hypot`]: crate::definitions::elementary_elementary_rows
    #[must_use]
    fn checked_hypot(self, other: Self) -> Option<Self>;

    /// Returns 1 over the square root, rounded down, or `None` if the number is not above 0 or the result does not fit.
    ///
    /// # Examples
    ///
    /// ```
    /// use zugyelmas::prelude::*;
    /// type Number = FixedI8<4>; // from -8 to 7.9375
    /// let number = Number::from_num::<f64>;
    ///
    /// assert_eq!(number(4.0).checked_recip_sqrt(), Some(number(0.5)));
    /// // 0.7071.., rounded down
    /// assert_eq!(number(2.0).checked_recip_sqrt(), Some(number(0.6875)));
    /// // 1/64 has the root 1/8: 8 does not fit
    /// assert_eq!(FixedI8::<7>::from_bits(2).checked_recip_sqrt(), None);
    /// assert_eq!(number(0.0).checked_recip_sqrt(), None); // only numbers above 0 have one
    /// ```
    ///
    /// # Compile errors
    ///
    /// Compiles only if the fraction F is at most the width.
    ///
    /// # Proved
    ///
    /// ```text
    /// requires { Self.FRACTION ≤ Self.BITS }
    /// ensures { option_map Self.number result ≡ checked Self.SIGNED Self.BITS
    ///     (by_positive (Self.number self) (exact_recip_sqrt (Self.number self) Self.FRACTION)) }
    /// ```
    ///
    /// Definitions: [`checked`], [`by_positive`], [`exact_recip_sqrt`].
    ///
    /// [`checked`]: crate::definitions::word_policies
    /// [`by_positive`]: crate::definitions::elementary_elementary_rows
    /// [`exact_recip_sqrt`]: crate::definitions::elementary_elementary_rows
    #[must_use]
    fn checked_recip_sqrt(self) -> Option<Self>;

    /// Returns the logarithm to the base 2, rounded down, or `None` if the number is not above 0 or the result does not
    /// fit.
    ///
    /// The result may be one unit too small if the logarithm is less than `2^-k` units above a whole number of units; k
    /// is `62-F` on words of up to 32 bits, and `126-F` on words of 64 bits. The logarithm of a power of two is exact.
    ///
    /// # Examples
    ///
    /// ```
    /// use zugyelmas::prelude::*;
    /// type Number = FixedI8<4>; // from -8 to 7.9375
    /// let number = Number::from_num::<f64>;
    ///
    /// // exact, since 4 is a power of two
    /// assert_eq!(number(4.0).checked_log2(), Some(number(2.0)));
    /// // 1.5849.., rounded down
    /// assert_eq!(number(3.0).checked_log2(), Some(number(1.5625)));
    /// // -2.4150.., rounded down
    /// assert_eq!(number(0.1875).checked_log2(), Some(number(-2.4375)));
    /// assert_eq!(FixedI8::<7>::from_bits(2).checked_log2(), None); // -6 does not fit
    /// assert_eq!(number(0.0).checked_log2(), None); // only numbers above 0 have one
    /// ```
    ///
    /// # Compile errors
    ///
    /// Compiles only if the fraction F is at most the width.
    ///
    /// # Proved
    ///
    /// ```text
    /// requires { Self.FRACTION ≤ Self.BITS }
    /// ensures none { Self.number self ≤ℤ pos 0 → result ≡ None }
    /// ensures log2 { pos 0 <ℤ Self.number self
    ///     → (r : ℤ) × IsLog2Of (log2_room Self.BITS) (Self.number self) Self.FRACTION r
    ///     × (option_map Self.number result ≡ checked Self.SIGNED Self.BITS (Some r)) }
    /// ```
    ///
    /// Definitions: [`checked`], [`log2_room`].
    ///
    /// [`checked`]: crate::definitions::word_policies
    /// [`log2_room`]: crate::definitions::elementary_log2
    #[must_use]
    fn checked_log2(self) -> Option<Self>;

    /// Returns 2 to the power of the number, rounded down, or `None` if it does not fit.
    ///
    /// The result may be one unit too small if the power is less than a factor of `2^(2^-k)` above a whole number of
    /// units; k is 54 on words of up to 32 bits, and 117 on words of 64 bits. 2 to the power of a whole number of at
    /// least -F is exact.
    ///
    /// # Examples
    ///
    /// ```
    /// use zugyelmas::prelude::*;
    /// type Number = FixedI8<4>; // from -8 to 7.9375
    /// let number = Number::from_num::<f64>;
    ///
    /// assert_eq!(number(1.0).checked_exp2(), Some(number(2.0)));
    /// // 1.4142.., rounded down
    /// assert_eq!(number(0.5).checked_exp2(), Some(number(1.375)));
    /// assert_eq!(number(-1.0).checked_exp2(), Some(number(0.5)));
    /// assert_eq!(number(-5.0).checked_exp2(), Some(Number::ZERO)); // 1/32 is half a unit
    /// assert_eq!(number(3.0).checked_exp2(), None); // 8 does not fit
    /// ```
    ///
    /// # Compile errors
    ///
    /// Compiles only if the fraction F is at most the width.
    ///
    /// # Proved
    ///
    /// ```text
    /// requires { Self.FRACTION ≤ Self.BITS }
    /// ensures { (r : ℤ) × IsExp2Of (exp2_room Self.BITS) (Self.number self) Self.FRACTION r
    ///     × (option_map Self.number result ≡ checked Self.SIGNED Self.BITS (Some r)) }
    /// ```
    ///
    /// Definitions: [`checked`], [`IsExp2Of`], [`exp2_room`].
    ///
    /// [`checked`]: crate::definitions::word_policies
    /// [`IsExp2Of`]: crate::definitions::elementary_exp2
    /// [`exp2_room`]: crate::definitions::elementary_exp2
    #[must_use]
    fn checked_exp2(self) -> Option<Self>;
}

impl<T: Word, const F: u32> CheckedMath for Fixed<T, F> {
    fn checked_hypot(self, other: Self) -> Option<Self> {
        checked_number(hypot_of(self.bits, other.bits))
    }

    #[track_caller]
    fn checked_recip_sqrt(self) -> Option<Self> {
        const {
            assert!(
                F <= T::BITS,
                "precondition: the fraction F is at most the width"
            )
        };
        if !is_above_zero(self.bits) {
            return None;
        }
        checked_number(recip_sqrt_of(self.bits, F))
    }

    #[track_caller]
    fn checked_log2(self) -> Option<Self> {
        const {
            assert!(
                F <= T::BITS,
                "precondition: the fraction F is at most the width"
            )
        };
        if !is_above_zero(self.bits) {
            return None;
        }
        checked_number(log2_of(self.bits, F))
    }

    #[track_caller]
    fn checked_exp2(self) -> Option<Self> {
        const {
            assert!(
                F <= T::BITS,
                "precondition: the fraction F is at most the width"
            )
        };
        checked_number(exp2_of(self.bits, F))
    }
}
