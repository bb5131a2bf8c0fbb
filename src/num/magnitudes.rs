// Made by `make package` of crates/fixed_num/src/magnitudes.rt, which is proved: changes go there.

//! Calls on the magnitude, the sign, the mean and the shifts of numbers.

use crate::kernel::round_to_zero_of;
use crate::num::format::Fixed;
use crate::num::sign_magnitude::{bit_length, distance, highest_power};
use crate::word::{Arithmetic, Integer, RawWord, SignedWord, UnsignedWord, Word};

impl<T: Word, const F: u32> Fixed<T, F> {
    /// Returns the magnitude of the difference, as an unsigned number. It always fits.
    ///
    /// # Examples
    ///
    /// ```
    /// use zugyelmas::prelude::*;
    /// type Number = FixedI8<4>; // from -8 to 7.9375
    /// let number = Number::from_num::<f64>;
    ///
    /// assert_eq!(number(1.5).abs_diff(number(-2.0)), FixedU8::from_num(3.5));
    /// assert_eq!(Number::MIN.abs_diff(Number::MAX), FixedU8::MAX); // 15.9375
    /// ```
    ///
    /// # Proved
    ///
    /// ```text
    /// ensures { T.Unsigned.value result.bits
    ///     ≡ pos (unsigned_abs (T.value self.bits -ℤ T.value other.bits)) }
    /// ```
    #[must_use]
    pub fn abs_diff(self, other: Self) -> Fixed<T::Unsigned, F> {
        Fixed {
            bits: <T::Unsigned as RawWord>::residue(false, distance(self.bits, other.bits) as u128),
        }
    }

    /// Returns half the sum, rounded down. It always fits.
    ///
    /// # Examples
    ///
    /// ```
    /// use zugyelmas::prelude::*;
    /// type Number = FixedI8<4>; // from -8 to 7.9375
    /// let number = Number::from_num::<f64>;
    ///
    /// assert_eq!(number(1.5).mean(number(2.0)), number(1.75));
    /// // -0.03125, rounded down
    /// assert_eq!(number(0.0).mean(number(-0.0625)), number(-0.0625));
    /// assert_eq!(Number::MAX.mean(Number::MAX), Number::MAX); // the sum would not fit
    /// ```
    ///
    /// # Proved
    ///
    /// ```text
    /// ensures { T.value result.bits ≡ mean_of (T.value self.bits) (T.value other.bits) }
    /// ```
    ///
    /// Definitions: [`mean_of`].
    ///
    /// [`mean_of`]: crate::definitions::num_sizes
    #[must_use]
    pub fn mean(self, other: Self) -> Self {
        let sum = self.bits.whole().plus(other.bits.whole());
        Fixed {
            bits: T::cut(sum.floored(1)),
        }
    }

    /// Returns the bits shifted left by `rhs`; bits shifted out are lost. The result is 0 if `rhs` is the width or
    /// more.
    ///
    /// # Examples
    ///
    /// ```
    /// use zugyelmas::prelude::*;
    /// type Number = FixedI8<4>; // from -8 to 7.9375
    /// let number = Number::from_num::<f64>;
    ///
    /// assert_eq!(number(1.5).unbounded_shl(2), number(6.0));
    /// // the shift is not below the width
    /// assert_eq!(number(1.5).unbounded_shl(8), number(0.0));
    /// ```
    ///
    /// # Proved
    ///
    /// ```text
    /// ensures { T.value result.bits ≡ wrap T.SIGNED T.BITS (T.value self.bits *ℤ pos (2 ^ rhs)) }
    /// ```
    ///
    /// Definitions: [`wrap`].
    ///
    /// [`wrap`]: crate::definitions::word_format
    #[must_use]
    pub fn unbounded_shl(self, rhs: u32) -> Self {
        if rhs >= T::BITS {
            return Fixed { bits: T::ZERO };
        }
        Fixed {
            bits: T::cut(self.bits.whole().scaled(rhs)),
        }
    }

    /// Returns the bits shifted right by `rhs`, rounded down. If `rhs` is the width or more, the bits are 0, or -1 if
    /// the number is negative.
    ///
    /// # Examples
    ///
    /// ```
    /// use zugyelmas::prelude::*;
    /// type Number = FixedI8<4>; // from -8 to 7.9375
    /// let number = Number::from_num::<f64>;
    ///
    /// assert_eq!(number(1.5).unbounded_shr(1), number(0.75));
    /// // the shift is not below the width
    /// assert_eq!(number(1.5).unbounded_shr(8), number(0.0));
    /// assert_eq!(number(-1.5).unbounded_shr(8), number(-0.0625)); // rounded down
    /// ```
    ///
    /// # Proved
    ///
    /// ```text
    /// ensures { T.value result.bits ≡ floor_quotient (T.value self.bits) (2 ^ rhs) }
    /// ```
    ///
    /// Definitions: [`floor_quotient`].
    ///
    /// [`floor_quotient`]: crate::definitions::word_quotient
    #[must_use]
    pub fn unbounded_shr(self, rhs: u32) -> Self {
        let by = rhs.min(T::BITS);
        Fixed {
            bits: T::cut(self.bits.whole().floored(by)),
        }
    }

    /// Returns the number, rounded toward zero to a whole number. Precondition: F is at most the width.
    ///
    /// # Examples
    ///
    /// ```
    /// use zugyelmas::prelude::*;
    /// type Number = FixedI8<4>; // from -8 to 7.9375
    /// let number = Number::from_num::<f64>;
    ///
    /// assert_eq!(number(1.75).round_to_zero(), number(1.0));
    /// assert_eq!(number(-1.75).round_to_zero(), number(-1.0));
    /// ```
    ///
    /// # Compile errors
    ///
    /// Compiles only if the fraction F is at most the width.
    ///
    /// # Proved
    ///
    /// ```text
    /// requires { F ≤ T.BITS }
    /// ensures { T.value result.bits
    ///     ≡ pos (2 ^ F) *ℤ truncated_quotient (T.value self.bits) (pos (2 ^ F)) }
    /// ```
    ///
    /// Definitions: [`truncated_quotient`].
    ///
    /// [`truncated_quotient`]: crate::definitions::word_quotient
    #[track_caller]
    #[must_use]
    pub fn round_to_zero(self) -> Self {
        const {
            assert!(
                F <= T::BITS,
                "precondition: the fraction F is at most the width"
            )
        };
        Fixed {
            bits: round_to_zero_of(self.bits, F),
        }
    }
}

impl<T: SignedWord, const F: u32> Fixed<T, F> {
    /// Returns whether the number is positive.
    ///
    /// # Examples
    ///
    /// ```
    /// use zugyelmas::prelude::*;
    /// type Number = FixedI8<4>; // from -8 to 7.9375
    /// let number = Number::from_num::<f64>;
    ///
    /// assert!(number(0.0625).is_positive());
    /// assert!(!number(0.0).is_positive());
    /// ```
    ///
    /// # Proved
    ///
    /// ```text
    /// ensures { IsTrue result ↔ (pos 0 <ℤ T.value self.bits) }
    /// ```
    #[must_use]
    pub fn is_positive(self) -> bool {
        !self.bits.is_below_zero() && self.bits.magnitude() > 0
    }

    /// Returns whether the number is negative.
    ///
    /// # Examples
    ///
    /// ```
    /// use zugyelmas::prelude::*;
    /// type Number = FixedI8<4>; // from -8 to 7.9375
    /// let number = Number::from_num::<f64>;
    ///
    /// assert!(number(-0.0625).is_negative());
    /// assert!(!number(0.0).is_negative());
    /// ```
    ///
    /// # Proved
    ///
    /// ```text
    /// ensures { IsTrue result ↔ (T.value self.bits <ℤ pos 0) }
    /// ```
    #[must_use]
    pub fn is_negative(self) -> bool {
        self.bits.is_below_zero()
    }

    /// Returns how many bits the number needs as a signed integer: the smallest m of at least 1 with
    /// `-2^(m-1) <= bits < 2^(m-1)`.
    ///
    /// # Examples
    ///
    /// ```
    /// use zugyelmas::prelude::*;
    /// type Number = FixedI8<4>; // from -8 to 7.9375
    /// let number = Number::from_num::<f64>;
    ///
    /// assert_eq!(number(1.5).signed_bits(), 6); // 24 is below 2^5
    /// assert_eq!(number(-2.0).signed_bits(), 6); // -32 is -2^5
    /// assert_eq!(number(0.0).signed_bits(), 1);
    /// ```
    ///
    /// # Proved
    ///
    /// ```text
    /// ensures { IsLeast (HasSignedSize (T.value self.bits)) result }
    /// ```
    ///
    /// Definitions: [`HasSignedSize`].
    ///
    /// [`HasSignedSize`]: crate::definitions::num_sizes
    #[must_use]
    pub fn signed_bits(self) -> u32 {
        if self.bits.is_below_zero() {
            bit_length(self.bits.magnitude() - 1) + 1
        } else {
            bit_length(self.bits.magnitude()) + 1
        }
    }

    /// Returns the magnitude, as an unsigned number. It always fits.
    ///
    /// # Examples
    ///
    /// ```
    /// use zugyelmas::prelude::*;
    /// type Number = FixedI8<4>; // from -8 to 7.9375
    /// let number = Number::from_num::<f64>;
    ///
    /// assert_eq!(number(-1.5).unsigned_abs(), FixedU8::from_num(1.5));
    /// assert_eq!(Number::MIN.unsigned_abs(), FixedU8::from_num(8.0));
    /// ```
    ///
    /// # Proved
    ///
    /// ```text
    /// ensures { T.Unsigned.value result.bits ≡ pos (unsigned_abs (T.value self.bits)) }
    /// ```
    #[must_use]
    pub fn unsigned_abs(self) -> Fixed<T::Unsigned, F> {
        Fixed {
            bits: <T::Unsigned as RawWord>::residue(false, self.bits.magnitude() as u128),
        }
    }

    /// Returns the magnitude of the difference, as an unsigned number. It always fits.
    ///
    /// # Examples
    ///
    /// ```
    /// use zugyelmas::prelude::*;
    /// type Number = FixedI8<4>; // from -8 to 7.9375
    /// let number = Number::from_num::<f64>;
    ///
    /// assert_eq!(number(1.5).unsigned_dist(number(-2.0)), FixedU8::from_num(3.5));
    /// assert_eq!(Number::MIN.unsigned_dist(Number::MAX), FixedU8::MAX); // 15.9375
    /// ```
    ///
    /// # Proved
    ///
    /// ```text
    /// ensures { T.Unsigned.value result.bits
    ///     ≡ pos (unsigned_abs (T.value self.bits -ℤ T.value other.bits)) }
    /// ```
    #[must_use]
    pub fn unsigned_dist(self, other: Self) -> Fixed<T::Unsigned, F> {
        self.abs_diff(other)
    }
}

impl<T: UnsignedWord, const F: u32> Fixed<T, F> {
    /// Returns how many bits the number needs: the smallest m with `bits < 2^m`.
    ///
    /// # Examples
    ///
    /// ```
    /// use zugyelmas::prelude::*;
    /// type Number = FixedI8<4>; // from -8 to 7.9375
    /// let number = Number::from_num::<f64>;
    ///
    /// assert_eq!(FixedU8::<4>::from_bits(24).significant_bits(), 5); // 24 is below 2^5
    /// assert_eq!(FixedU8::<4>::ZERO.significant_bits(), 0);
    /// ```
    ///
    /// # Proved
    ///
    /// ```text
    /// ensures { IsLeast (HasSize (T.value self.bits)) result }
    /// ```
    ///
    /// Definitions: [`HasSize`].
    ///
    /// [`HasSize`]: crate::definitions::num_sizes
    #[must_use]
    pub fn significant_bits(self) -> u32 {
        bit_length(self.bits.magnitude())
    }

    /// Returns whether the bits are a power of 2.
    ///
    /// # Examples
    ///
    /// ```
    /// use zugyelmas::prelude::*;
    /// type Number = FixedI8<4>; // from -8 to 7.9375
    /// let number = Number::from_num::<f64>;
    ///
    /// assert!(FixedU8::<4>::from_bits(8).is_power_of_two()); // 0.5
    /// assert!(!FixedU8::<4>::from_bits(24).is_power_of_two()); // 1.5
    /// assert!(!FixedU8::<4>::ZERO.is_power_of_two());
    /// ```
    ///
    /// # Proved
    ///
    /// ```text
    /// ensures { IsTrue result ↔ IsPower (T.value self.bits) }
    /// ```
    ///
    /// Definitions: [`IsPower`].
    ///
    /// [`IsPower`]: crate::definitions::num_sizes
    #[must_use]
    pub fn is_power_of_two(self) -> bool {
        let magnitude = self.bits.magnitude();
        magnitude > 0 && magnitude == highest_power(magnitude)
    }

    /// Returns the number with only the highest bit that is 1, or 0 for 0.
    ///
    /// # Examples
    ///
    /// ```
    /// use zugyelmas::prelude::*;
    /// type Number = FixedI8<4>; // from -8 to 7.9375
    /// let number = Number::from_num::<f64>;
    ///
    /// // from 1.5 to 1
    /// assert_eq!(FixedU8::<4>::from_bits(24).highest_one(), FixedU8::from_bits(16));
    /// assert_eq!(FixedU8::<4>::ZERO.highest_one(), FixedU8::ZERO);
    /// ```
    ///
    /// # Proved
    ///
    /// ```text
    /// ensures { IsHighestOne (T.value self.bits) (T.value result.bits) }
    /// ```
    ///
    /// Definitions: [`IsHighestOne`].
    ///
    /// [`IsHighestOne`]: crate::definitions::num_sizes
    #[must_use]
    pub fn highest_one(self) -> Self {
        let magnitude = self.bits.magnitude();
        if magnitude == 0 {
            return self;
        }
        Fixed {
            bits: T::residue(false, highest_power(magnitude) as u128),
        }
    }
}
