// Made by `make package` of crates/fixed_natural/src/wrapping.rt, which is proved: changes go there.

//! The `wrapping_` calls of logarithms. The Rust crate `fixed` does not have them.

use crate::natural::logarithms::{ln_of, log10_of};
use crate::stopping::{Fixed, Held, Number, wrapping_number};
use crate::word::{RawWord, Word};

/// The `wrapping_` calls of logarithms. If the result does not fit, they return it wrapped. `exp` and `pow` have no
/// such form, since the lowest bits of a power above the range are not known. Operands and results are in units of
/// `2^-F`. Precondition of each call: F is at most the width.
pub trait WrappingNatural: Number {
    /// Returns the natural logarithm, rounded down and wrapped. Precondition: the number is above 0.
    ///
    /// For the result r before it is wrapped and the exact logarithm l in units, `r - 2^-k <= l < r + 1`, where k is 24
    /// on words of up to 32 bits and 32 on words of 64 bits. So r is the logarithm rounded down, or one unit more if l
    /// is at most `2^-k` below a whole number. The logarithm of 1 is exactly 0.
    ///
    /// # Examples
    ///
    /// ```
    /// use zugyelmas::prelude::*;
    /// type Number = FixedI8<4>; // from -8 to 7.9375
    /// let number = Number::from_num::<f64>;
    /// type Small = FixedI8<7>; // from -1 to 127/128
    /// let least = Small::from_bits(1); // 1/128
    ///
    /// assert_eq!(number(2.0).wrapping_ln(), number(0.6875)); // 0.6931.., rounded down
    /// assert_eq!(least.wrapping_ln(), Small::from_bits(-110)); // -622 units, plus 2 * 256
    /// ```
    ///
    /// ```should_panic
    /// # use zugyelmas::prelude::*;
    /// # type Number = FixedI8<4>; // from -8 to 7.9375
    /// # let number = Number::from_num::<f64>;
    /// # type Small = FixedI8<7>; // from -1 to 127/128
    /// # let least = Small::from_bits(1); // 1/128
    /// # std::panic::set_hook(Box::new(|_| {}));
    /// Number::ZERO.wrapping_ln(); // the number is not above 0
    /// ```
    ///
    /// # Compile errors
    ///
    /// Compiles only if the fraction F is at most the width.
    ///
    /// # Panics
    ///
    /// Panics unless the number is above 0.
    ///
    /// # Proved
    ///
    /// ```text
    /// requires fraction { Self.FRACTION ≤ Self.BITS }
    /// requires positive { pos 0 <ℤ Self.number self }
    /// ensures { (r : ℤ) × IsLn (log_room Self.BITS) (Self.number self) Self.FRACTION r
    ///     × (Some (Self.number result) ≡ wrapping Self.SIGNED Self.BITS (Some r)) }
    /// ```
    ///
    /// Definitions: [`wrapping`], [`IsLn`], [`log_room`].
    ///
    /// [`wrapping`]: crate::definitions::word_policies
    /// [`IsLn`]: crate::definitions::natural_logs
    /// [`log_room`]: crate::definitions::natural_logs
    #[must_use]
    fn wrapping_ln(self) -> Self;

    /// Returns the logarithm to the base 10, rounded down and wrapped. Precondition: the number is above 0.
    ///
    /// For the result r before it is wrapped and the exact logarithm l in units, `r - 2^-k <= l < r + 1`, where k is 24
    /// on words of up to 32 bits and 32 on words of 64 bits. So r is the logarithm rounded down, or one unit more if l
    /// is at most `2^-k` below a whole number. The logarithm of a power of 10 is exact.
    ///
    /// # Examples
    ///
    /// ```
    /// use zugyelmas::prelude::*;
    /// type Number = FixedI8<4>; // from -8 to 7.9375
    /// let number = Number::from_num::<f64>;
    /// type Small = FixedI8<7>; // from -1 to 127/128
    /// let least = Small::from_bits(1); // 1/128
    ///
    /// assert_eq!(number(2.0).wrapping_log10(), number(0.25)); // 0.3010.., rounded down
    /// assert_eq!(least.wrapping_log10(), Small::from_bits(-14)); // -270 units, plus 256
    /// ```
    ///
    /// ```should_panic
    /// # use zugyelmas::prelude::*;
    /// # type Number = FixedI8<4>; // from -8 to 7.9375
    /// # let number = Number::from_num::<f64>;
    /// # type Small = FixedI8<7>; // from -1 to 127/128
    /// # let least = Small::from_bits(1); // 1/128
    /// # std::panic::set_hook(Box::new(|_| {}));
    /// Number::ZERO.wrapping_log10(); // the number is not above 0
    /// ```
    ///
    /// # Compile errors
    ///
    /// Compiles only if the fraction F is at most the width.
    ///
    /// # Panics
    ///
    /// Panics unless the number is above 0.
    ///
    /// # Proved
    ///
    /// ```text
    /// requires fraction { Self.FRACTION ≤ Self.BITS }
    /// requires positive { pos 0 <ℤ Self.number self }
    /// ensures { (r : ℤ) × IsLog10 (log_room Self.BITS) (Self.number self) Self.FRACTION r
    ///     × (Some (Self.number result) ≡ wrapping Self.SIGNED Self.BITS (Some r)) }
    /// ```
    ///
    /// Definitions: [`wrapping`], [`IsLog10`], [`log_room`].
    ///
    /// [`wrapping`]: crate::definitions::word_policies
    /// [`IsLog10`]: crate::definitions::natural_logs
    /// [`log_room`]: crate::definitions::natural_logs
    #[must_use]
    fn wrapping_log10(self) -> Self;
}

impl<T: Word, const F: u32> WrappingNatural for Fixed<T, F> {
    #[track_caller]
    fn wrapping_ln(self) -> Self {
        const {
            assert!(
                F <= T::BITS,
                "precondition: the fraction F is at most the width"
            )
        };
        assert!(
            !self.bits.is_below_zero() && self.bits.magnitude() > 0,
            "precondition: the number is above 0"
        );
        wrapping_number(ln_of(self.bits, F))
    }

    #[track_caller]
    fn wrapping_log10(self) -> Self {
        const {
            assert!(
                F <= T::BITS,
                "precondition: the fraction F is at most the width"
            )
        };
        assert!(
            !self.bits.is_below_zero() && self.bits.magnitude() > 0,
            "precondition: the number is above 0"
        );
        wrapping_number(log10_of(self.bits, F))
    }
}
