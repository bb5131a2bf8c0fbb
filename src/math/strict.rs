// Made by `make package` of crates/fixed_math/src/strict.rt, which is proved: changes go there.

//! The `strict_` calls of elementary functions. The Rust crate `fixed` does not have them.

use crate::elementary::{exp2_of, hypot_of, log2_of, recip_sqrt_of};
use crate::stopping::{Fixed, Held, Number, exact_number};
use crate::word::{RawWord, Word};

/// The `strict_` calls of elementary functions. Precondition of each call: the result fits. Results are in units of
/// `2^-F`. Precondition of each call that uses F: F is at most the width.
pub trait StrictMath: Number {
    /// Returns the length of the pair `(self, other)`, rounded down.
    ///
    /// # Examples
    ///
    /// ```
    /// use zugyelmas::prelude::*;
    /// type Number = FixedI8<4>; // from -8 to 7.9375
    /// let number = Number::from_num::<f64>;
    ///
    /// assert_eq!(number(3.0).strict_hypot(number(-4.0)), number(5.0));
    /// // 2.7041.., rounded down
    /// assert_eq!(number(1.5).strict_hypot(number(2.25)), number(2.6875));
    /// ```
    ///
    /// ```should_panic
    /// # use zugyelmas::prelude::*;
    /// # type Number = FixedI8<4>; // from -8 to 7.9375
    /// # let number = Number::from_num::<f64>;
    /// # std::panic::set_hook(Box::new(|_| {}));
    /// number(6.0).strict_hypot(number(6.0)); // 8.4375 does not fit
    /// ```
    ///
    /// # Panics
    ///
    /// Panics unless the number fits.
    ///
    /// # Proved
    ///
    /// ```text
    /// requires { InRange Self.SIGNED Self.BITS
    ///     (exact_hypot (Self.number self) (Self.number other)) }
    /// ensures { Self.number result ≡ exact_hypot (Self.number self) (Self.number other) }
    /// ```
    ///
    /// Definitions: [`InRange`], [`exact_hypot`].
    ///
    /// [`InRange`]: crate::definitions::word_format
    /// [`exact_hypot`]: crate::definitions::elementary_elementary_rows
    #[must_use]
    fn strict_hypot(self, other: Self) -> Self;

    /// Returns 1 over the square root, rounded down. Precondition: the number is above 0.
    ///
    /// # Examples
    ///
    /// ```
    /// use zugyelmas::prelude::*;
    /// type Number = FixedI8<4>; // from -8 to 7.9375
    /// let number = Number::from_num::<f64>;
    ///
    /// assert_eq!(number(4.0).strict_recip_sqrt(), number(0.5));
    /// // 0.7071.., rounded down
    /// assert_eq!(number(2.0).strict_recip_sqrt(), number(0.6875));
    /// ```
    ///
    /// ```should_panic
    /// # use zugyelmas::prelude::*;
    /// # type Number = FixedI8<4>; // from -8 to 7.9375
    /// # let number = Number::from_num::<f64>;
    /// # std::panic::set_hook(Box::new(|_| {}));
    /// // 1/64 has the root 1/8: 8 does not fit
    /// FixedI8::<7>::from_bits(2).strict_recip_sqrt();
    /// ```
    ///
    /// ```should_panic
    /// # use zugyelmas::prelude::*;
    /// # type Number = FixedI8<4>; // from -8 to 7.9375
    /// # let number = Number::from_num::<f64>;
    /// # std::panic::set_hook(Box::new(|_| {}));
    /// number(0.0).strict_recip_sqrt(); // only numbers above 0 have one
    /// ```
    ///
    /// # Compile errors
    ///
    /// Compiles only if the fraction F is at most the width.
    ///
    /// # Panics
    ///
    /// Panics unless the number is above 0, and the number fits.
    ///
    /// # Proved
    ///
    /// ```text
    /// requires fraction { Self.FRACTION ≤ Self.BITS }
    /// requires positive { pos 0 <ℤ Self.number self }
    /// requires fits { InRange Self.SIGNED Self.BITS
    ///     (exact_recip_sqrt (Self.number self) Self.FRACTION) }
    /// ensures { Self.number result ≡ exact_recip_sqrt (Self.number self) Self.FRACTION }
    /// ```
    ///
    /// Definitions: [`InRange`], [`exact_recip_sqrt`].
    ///
    /// [`InRange`]: crate::definitions::word_format
    /// [`exact_recip_sqrt`]: crate::definitions::elementary_elementary_rows
    #[must_use]
    fn strict_recip_sqrt(self) -> Self;

    /// Returns the logarithm to the base 2, rounded down. Precondition: the number is above 0.
    ///
    /// The result may be one unit too small if the logarithm is less than `2^-k` units above a whole number of units; k
    /// is `62-F` on words of up to 32 bits, and `126-F` on words of 64 bits. The logarithm of a power of two is exact.
    /// Precondition: every result that this allows fits.
    ///
    /// # Examples
    ///
    /// ```
    /// use zugyelmas::prelude::*;
    /// type Number = FixedI8<4>; // from -8 to 7.9375
    /// let number = Number::from_num::<f64>;
    ///
    /// // exact, since 4 is a power of two
    /// assert_eq!(number(4.0).strict_log2(), number(2.0));
    /// assert_eq!(number(3.0).strict_log2(), number(1.5625)); // 1.5849.., rounded down
    /// assert_eq!(number(0.1875).strict_log2(), number(-2.4375)); // -2.4150.., rounded down
    /// ```
    ///
    /// ```should_panic
    /// # use zugyelmas::prelude::*;
    /// # type Number = FixedI8<4>; // from -8 to 7.9375
    /// # let number = Number::from_num::<f64>;
    /// # std::panic::set_hook(Box::new(|_| {}));
    /// FixedI8::<7>::from_bits(2).strict_log2(); // -6 does not fit
    /// ```
    ///
    /// ```should_panic
    /// # use zugyelmas::prelude::*;
    /// # type Number = FixedI8<4>; // from -8 to 7.9375
    /// # let number = Number::from_num::<f64>;
    /// # std::panic::set_hook(Box::new(|_| {}));
    /// number(0.0).strict_log2(); // only numbers above 0 have one
    /// ```
    ///
    /// # Compile errors
    ///
    /// Compiles only if the fraction F is at most the width.
    ///
    /// # Panics
    ///
    /// Panics unless the number is above 0, and the logarithm fits.
    ///
    /// # Proved
    ///
    /// ```text
    /// requires fraction { Self.FRACTION ≤ Self.BITS }
    /// requires positive { pos 0 <ℤ Self.number self }
    /// requires fits { (r : ℤ) → IsLog2Of (log2_room Self.BITS) (Self.number self) Self.FRACTION r
    ///     → InRange Self.SIGNED Self.BITS r }
    /// ensures { IsLog2Of (log2_room Self.BITS) (Self.number self) Self.FRACTION (Self.number result) }
    /// ```
    ///
    /// Definitions: [`InRange`], [`log2_room`].
    ///
    /// [`InRange`]: crate::definitions::word_format
    /// [`log2_room`]: crate::definitions::elementary_log2
    #[must_use]
    fn strict_log2(self) -> Self;

    /// Returns 2 to the power of the number, rounded down.
    ///
    /// The result may be one unit too small if the power is less than a factor of `2^(2^-k)` above a whole number of
    /// units; k is 54 on words of up to 32 bits, and 117 on words of 64 bits. 2 to the power of a whole number of at
    /// least -F is exact. Precondition: every result that this allows fits.
    ///
    /// # Examples
    ///
    /// ```
    /// use zugyelmas::prelude::*;
    /// type Number = FixedI8<4>; // from -8 to 7.9375
    /// let number = Number::from_num::<f64>;
    ///
    /// assert_eq!(number(1.0).strict_exp2(), number(2.0));
    /// assert_eq!(number(0.5).strict_exp2(), number(1.375)); // 1.4142.., rounded down
    /// ```
    ///
    /// ```should_panic
    /// # use zugyelmas::prelude::*;
    /// # type Number = FixedI8<4>; // from -8 to 7.9375
    /// # let number = Number::from_num::<f64>;
    /// # std::panic::set_hook(Box::new(|_| {}));
    /// number(3.0).strict_exp2(); // 8 does not fit
    /// ```
    ///
    /// # Compile errors
    ///
    /// Compiles only if the fraction F is at most the width.
    ///
    /// # Panics
    ///
    /// Panics unless the power fits.
    ///
    /// # Proved
    ///
    /// ```text
    /// requires fraction { Self.FRACTION ≤ Self.BITS }
    /// requires fits { (r : ℤ) → IsExp2Of (exp2_room Self.BITS) (Self.number self) Self.FRACTION r
    ///     → InRange Self.SIGNED Self.BITS r }
    /// ensures { IsExp2Of (exp2_room Self.BITS) (Self.number self) Self.FRACTION (Self.number result) }
    /// ```
    ///
    /// Definitions: [`InRange`], [`IsExp2Of`], [`exp2_room`].
    ///
    /// [`InRange`]: crate::definitions::word_format
    /// [`IsExp2Of`]: crate::definitions::elementary_exp2
    /// [`exp2_room`]: crate::definitions::elementary_exp2
    #[must_use]
    fn strict_exp2(self) -> Self;
}

impl<T: Word, const F: u32> StrictMath for Fixed<T, F> {
    #[track_caller]
    fn strict_hypot(self, other: Self) -> Self {
        exact_number(hypot_of(self.bits, other.bits))
    }

    #[track_caller]
    fn strict_recip_sqrt(self) -> Self {
        const {
            assert!(
                F <= T::BITS,
                "precondition: the fraction F is at most the width"
            )
        };
        assert!(
            !self.bits.is_below_zero() && self.bits.magnitude() > 0,
            "precondition: the number is above 0"
        );
        exact_number(recip_sqrt_of(self.bits, F))
    }

    #[track_caller]
    fn strict_log2(self) -> Self {
        const {
            assert!(
                F <= T::BITS,
                "precondition: the fraction F is at most the width"
            )
        };
        assert!(
            !self.bits.is_below_zero() && self.bits.magnitude() > 0,
            "precondition: the number is above 0"
        );
        exact_number(log2_of(self.bits, F))
    }

    #[track_caller]
    fn strict_exp2(self) -> Self {
        const {
            assert!(
                F <= T::BITS,
                "precondition: the fraction F is at most the width"
            )
        };
        exact_number(exp2_of(self.bits, F))
    }
}
