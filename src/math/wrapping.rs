// Made by `make package` of crates/fixed_math/src/wrapping.rt, which is proved: changes go there.

//! The `wrapping_` calls of elementary functions. The Rust crate `fixed` does not have them.

use crate::elementary::{hypot_of, log2_of, recip_sqrt_of};
use crate::stopping::{Fixed, Held, Number, wrapping_number};
use crate::word::{RawWord, Word};

/// The `wrapping_` calls of elementary functions. If the result does not fit, they return it wrapped. Results are in
/// units of `2^-F`. Precondition of each call that uses F: F is at most the width.
pub trait WrappingMath: Number {
    /// Returns the length of the pair `(self, other)`, rounded down and wrapped.
    ///
    /// # Examples
    ///
    /// ```
    /// use zugyelmas::prelude::*;
    /// type Number = FixedI8<4>; // from -8 to 7.9375
    /// let number = Number::from_num::<f64>;
    ///
    /// assert_eq!(number(3.0).wrapping_hypot(number(-4.0)), number(5.0));
    /// // 2.7041.., rounded down
    /// assert_eq!(number(1.5).wrapping_hypot(number(2.25)), number(2.6875));
    /// // 8.4375 does not fit
    /// assert_eq!(number(6.0).wrapping_hypot(number(6.0)), number(-7.5625));
    /// ```
    ///
    /// # Proved
    ///
    /// ```text
    /// ensures { Some (Self.number result) ≡ wrapping Self.SIGNED Self.BITS
    ///     (Some (exact_hypot (Self.number self) (Self.number other))) }
    /// ```
    ///
    /// Definitions: [`wrapping`], [`exact_hypot`].
    ///
    /// [`wrapping`]: crate::definitions::word_policies
    /// [`exact_hypot`]: crate::definitions::elementary_elementary_rows
    #[must_use]
    fn wrapping_hypot(self, other: Self) -> Self;

    /// Returns 1 over the square root, rounded down and wrapped. Precondition: the number is above 0.
    ///
    /// # Examples
    ///
    /// ```
    /// use zugyelmas::prelude::*;
    /// type Number = FixedI8<4>; // from -8 to 7.9375
    /// let number = Number::from_num::<f64>;
    ///
    /// assert_eq!(number(4.0).wrapping_recip_sqrt(), number(0.5));
    /// // 0.7071.., rounded down
    /// assert_eq!(number(2.0).wrapping_recip_sqrt(), number(0.6875));
    /// // 1/64 has the root 1/8: 8 does not fit
    /// assert_eq!(FixedI8::<7>::from_bits(2).wrapping_recip_sqrt(), FixedI8::ZERO);
    /// ```
    ///
    /// ```should_panic
    /// # use zugyelmas::prelude::*;
    /// # type Number = FixedI8<4>; // from -8 to 7.9375
    /// # let number = Number::from_num::<f64>;
    /// # std::panic::set_hook(Box::new(|_| {}));
    /// number(0.0).wrapping_recip_sqrt(); // only numbers above 0 have one
    /// ```
    ///
    /// # Compile errors
    ///
    /// Compiles only if the fraction F is at most the width.
    ///
    /// # Panics
    ///
    /// Panics unless the number is above 0.
    ///
    /// # Proved
    ///
    /// ```text
    /// requires fraction { Self.FRACTION ≤ Self.BITS }
    /// requires positive { pos 0 <ℤ Self.number self }
    /// ensures { Some (Self.number result) ≡ wrapping Self.SIGNED Self.BITS
    ///     (Some (exact_recip_sqrt (Self.number self) Self.FRACTION)) }
    /// ```
    ///
    /// Definitions: [`wrapping`], [`exact_recip_sqrt`].
    ///
    /// [`wrapping`]: crate::definitions::word_policies
    /// [`exact_recip_sqrt`]: crate::definitions::elementary_elementary_rows
    #[must_use]
    fn wrapping_recip_sqrt(self) -> Self;

    /// Returns the logarithm to the base 2, rounded down and wrapped. Precondition: the number is above 0.
    ///
    /// The result may be one unit too small if the logarithm is less than `2^-k` units above a whole number of units; k
    /// is `62-F` on words of up to 32 bits, and `126-F` on words of 64 bits. The logarithm of a power of two is exact.
    ///
    /// # Examples
    ///
    /// ```
    /// use zugyelmas::prelude::*;
    /// type Number = FixedI8<4>; // from -8 to 7.9375
    /// let number = Number::from_num::<f64>;
    ///
    /// // exact, since 4 is a power of two
    /// assert_eq!(number(4.0).wrapping_log2(), number(2.0));
    /// assert_eq!(number(3.0).wrapping_log2(), number(1.5625)); // 1.5849.., rounded down
    /// // -2.4150.., rounded down
    /// assert_eq!(number(0.1875).wrapping_log2(), number(-2.4375));
    /// // -6 does not fit
    /// assert_eq!(FixedI8::<7>::from_bits(2).wrapping_log2(), FixedI8::ZERO);
    /// ```
    ///
    /// ```should_panic
    /// # use zugyelmas::prelude::*;
    /// # type Number = FixedI8<4>; // from -8 to 7.9375
    /// # let number = Number::from_num::<f64>;
    /// # std::panic::set_hook(Box::new(|_| {}));
    /// number(0.0).wrapping_log2(); // only numbers above 0 have one
    /// ```
    ///
    /// # Compile errors
    ///
    /// Compiles only if the fraction F is at most the width.
    ///
    /// # Panics
    ///
    /// Panics unless the number is above 0.
    ///
    /// # Proved
    ///
    /// ```text
    /// requires fraction { Self.FRACTION ≤ Self.BITS }
    /// requires positive { pos 0 <ℤ Self.number self }
    /// ensures { (r : ℤ) × IsLog2Of (log2_room Self.BITS) (Self.number self) Self.FRACTION r
    ///     × (Some (Self.number result) ≡ wrapping Self.SIGNED Self.BITS (Some r)) }
    /// ```
    ///
    /// Definitions: [`wrapping`], [`log2_room`].
    ///
    /// [`wrapping`]: crate::definitions::word_policies
    /// [`log2_room`]: crate::definitions::elementary_log2
    #[must_use]
    fn wrapping_log2(self) -> Self;
}

impl<T: Word, const F: u32> WrappingMath for Fixed<T, F> {
    fn wrapping_hypot(self, other: Self) -> Self {
        wrapping_number(hypot_of(self.bits, other.bits))
    }

    #[track_caller]
    fn wrapping_recip_sqrt(self) -> Self {
        const {
            assert!(
                F <= T::BITS,
                "precondition: the fraction F is at most the width"
            )
        };
        assert!(
            !self.bits.is_below_zero() && self.bits.magnitude() > 0,
            "precondition: the number is above 0"
        );
        wrapping_number(recip_sqrt_of(self.bits, F))
    }

    #[track_caller]
    fn wrapping_log2(self) -> Self {
        const {
            assert!(
                F <= T::BITS,
                "precondition: the fraction F is at most the width"
            )
        };
        assert!(
            !self.bits.is_below_zero() && self.bits.magnitude() > 0,
            "precondition: the number is above 0"
        );
        wrapping_number(log2_of(self.bits, F))
    }
}
