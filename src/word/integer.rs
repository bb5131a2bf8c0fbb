// Made by `make package` of crates/fixed_word/src/integer.rt, which is proved: changes go there.

//! Integers that hold products and quotients of words.

use crate::word::word::Valued;

/// An integer of n bits, in which words are multiplied and divided.
pub trait Integer: Valued {
    /// Returns whether the value is negative.
    ///
    /// # Examples
    ///
    /// ```
    /// use zugyelmas::word::Integer;
    ///
    /// assert!((-1_i16).is_below_zero());
    /// assert!(!0_i16.is_below_zero());
    /// ```
    ///
    /// # Proved
    ///
    /// ```text
    /// ensures { IsTrue result ↔ (Self.value self <ℤ pos 0) }
    /// ```
    #[must_use]
    fn is_below_zero(self) -> bool;

    /// Returns whether the value is less than the other one.
    ///
    /// # Examples
    ///
    /// ```
    /// use zugyelmas::word::Integer;
    ///
    /// assert!((-300_i16).is_below(2));
    /// assert!(!2_i16.is_below(2));
    /// ```
    ///
    /// # Proved
    ///
    /// ```text
    /// ensures { IsTrue result ↔ (Self.value self <ℤ Self.value other) }
    /// ```
    #[must_use]
    fn is_below(self, other: Self) -> bool;

    /// Returns whether the value is the other one.
    ///
    /// # Examples
    ///
    /// ```
    /// use zugyelmas::word::Integer;
    ///
    /// assert!((-300_i16).equals(-300));
    /// assert!(!2_i16.equals(-2));
    /// ```
    ///
    /// # Proved
    ///
    /// ```text
    /// ensures { IsTrue result ↔ (Self.value self ≡ Self.value other) }
    /// ```
    #[must_use]
    fn equals(self, other: Self) -> bool;

    /// Returns the sum. Precondition: it is in the range.
    ///
    /// # Examples
    ///
    /// ```
    /// use zugyelmas::word::Integer;
    ///
    /// assert_eq!(300_i16.plus(-100), 200);
    /// assert_eq!(i16::MAX.plus(i16::MIN), -1);
    /// ```
    ///
    /// # Panics
    ///
    /// With debug assertions or overflow checks, panics unless the sum fits. Without both, the result is wrapped.
    ///
    /// # Proved
    ///
    /// ```text
    /// requires { InRange SIGNED Self.BITS (Self.value self +ℤ Self.value other) }
    /// ensures { Self.value result ≡ Self.value self +ℤ Self.value other }
    /// ```
    ///
    /// Definitions: [`InRange`].
    ///
    /// [`InRange`]: crate::definitions::word_format
    #[must_use]
    fn plus(self, other: Self) -> Self;

    /// Returns the product. Precondition: it is in the range.
    ///
    /// # Examples
    ///
    /// ```
    /// use zugyelmas::word::Integer;
    ///
    /// assert_eq!(300_i16.times(-100), -30_000);
    /// assert_eq!((-256_i16).times(128), i16::MIN);
    /// ```
    ///
    /// # Panics
    ///
    /// With debug assertions or overflow checks, panics unless the product fits. Without both, the result is wrapped.
    ///
    /// # Proved
    ///
    /// ```text
    /// requires { InRange SIGNED Self.BITS (Self.value self *ℤ Self.value other) }
    /// ensures { Self.value result ≡ Self.value self *ℤ Self.value other }
    /// ```
    ///
    /// Definitions: [`InRange`].
    ///
    /// [`InRange`]: crate::definitions::word_format
    #[must_use]
    fn times(self, other: Self) -> Self;

    /// Returns the value times `2^by`. Preconditions: it is in the range, and `by` is below n.
    ///
    /// # Examples
    ///
    /// ```
    /// use zugyelmas::word::Integer;
    ///
    /// assert_eq!((-5_i16).scaled(3), -40);
    /// assert_eq!((-1_i16).scaled(15), i16::MIN);
    /// ```
    ///
    /// ```should_panic
    /// # use zugyelmas::word::Integer;
    /// # std::panic::set_hook(Box::new(|_| {}));
    /// 5_i16.scaled(16); // the shift is not below the width
    /// ```
    ///
    /// # Panics
    ///
    /// Panics unless the shift is below the width.
    ///
    /// With debug assertions, panics unless the number fits. Without them, the result is wrapped.
    ///
    /// # Proved
    ///
    /// ```text
    /// requires by { by < Self.BITS }
    /// requires room { InRange SIGNED Self.BITS (Self.value self *ℤ pos (2 ^ by)) }
    /// ensures { Self.value result ≡ Self.value self *ℤ pos (2 ^ by) }
    /// ```
    ///
    /// Definitions: [`InRange`].
    ///
    /// [`InRange`]: crate::definitions::word_format
    #[must_use]
    fn scaled(self, by: u32) -> Self;

    /// Returns the value over `2^by`, rounded down. Precondition: `by` is below n.
    ///
    /// # Examples
    ///
    /// ```
    /// use zugyelmas::word::Integer;
    ///
    /// assert_eq!(5_i16.floored(1), 2);
    /// assert_eq!((-5_i16).floored(1), -3); // -2.5, rounded down
    /// ```
    ///
    /// ```should_panic
    /// # use zugyelmas::word::Integer;
    /// # std::panic::set_hook(Box::new(|_| {}));
    /// 5_i16.floored(16); // the shift is not below the width
    /// ```
    ///
    /// # Panics
    ///
    /// Panics unless the shift is below the width.
    ///
    /// # Proved
    ///
    /// ```text
    /// requires { by < Self.BITS }
    /// ensures { Self.value result ≡ floor_quotient (Self.value self) (2 ^ by) }
    /// ```
    ///
    /// Definitions: [`floor_quotient`].
    ///
    /// [`floor_quotient`]: crate::definitions::word_quotient
    #[must_use]
    fn floored(self, by: u32) -> Self;

    /// Returns the quotient, rounded toward zero and wrapped. Only the quotient of the smallest number by -1 is out
    /// of range. Precondition: the divisor is not 0.
    ///
    /// # Examples
    ///
    /// ```
    /// use zugyelmas::word::Integer;
    ///
    /// assert_eq!((-7_i16).over(2), -3); // -3.5, rounded toward zero
    /// assert_eq!(i16::MIN.over(-1), i16::MIN); // 32768 does not fit
    /// ```
    ///
    /// ```should_panic
    /// # use zugyelmas::word::Integer;
    /// # std::panic::set_hook(Box::new(|_| {}));
    /// 7_i16.over(0); // the divisor is 0
    /// ```
    ///
    /// # Panics
    ///
    /// Panics unless the divisor is not 0.
    ///
    /// # Proved
    ///
    /// ```text
    /// requires { Self.value divisor ≢ pos 0 }
    /// ensures { Self.value result
    ///     ≡ wrap SIGNED Self.BITS (truncated_quotient (Self.value self) (Self.value divisor)) }
    /// ```
    ///
    /// Definitions: [`wrap`], [`truncated_quotient`].
    ///
    /// [`wrap`]: crate::definitions::word_format
    /// [`truncated_quotient`]: crate::definitions::word_quotient
    #[must_use]
    fn over(self, divisor: Self) -> Self;

    /// Returns the remainder of the quotient that is rounded toward zero. Precondition: the divisor is not 0.
    ///
    /// # Examples
    ///
    /// ```
    /// use zugyelmas::word::Integer;
    ///
    /// assert_eq!(7_i16.remainder(-2), 1);
    /// assert_eq!((-7_i16).remainder(2), -1); // the sign of the dividend
    /// ```
    ///
    /// ```should_panic
    /// # use zugyelmas::word::Integer;
    /// # std::panic::set_hook(Box::new(|_| {}));
    /// 7_i16.remainder(0); // the divisor is 0
    /// ```
    ///
    /// # Panics
    ///
    /// Panics unless the divisor is not 0.
    ///
    /// # Proved
    ///
    /// ```text
    /// requires { Self.value divisor ≢ pos 0 }
    /// ensures { Self.value result
    ///     ≡ Self.value self
    ///     -ℤ Self.value divisor *ℤ truncated_quotient (Self.value self) (Self.value divisor) }
    /// ```
    ///
    /// Definitions: [`truncated_quotient`].
    ///
    /// [`truncated_quotient`]: crate::definitions::word_quotient
    #[must_use]
    fn remainder(self, divisor: Self) -> Self;

    /// Returns the Euclidean quotient. Preconditions: it is in the range, and the divisor is not 0.
    ///
    /// # Examples
    ///
    /// ```
    /// use zugyelmas::word::Integer;
    ///
    /// assert_eq!(7_i16.euclid_quotient(2), 3);
    /// assert_eq!((-7_i16).euclid_quotient(2), -4); // the remainder is 1
    /// ```
    ///
    /// ```should_panic
    /// # use zugyelmas::word::Integer;
    /// # std::panic::set_hook(Box::new(|_| {}));
    /// 7_i16.euclid_quotient(0); // the divisor is 0
    /// ```
    ///
    /// # Panics
    ///
    /// Panics unless the divisor is not 0.
    ///
    /// With debug assertions, panics unless the number fits. Without them, the result is wrapped.
    ///
    /// # Proved
    ///
    /// ```text
    /// requires divisor { Self.value divisor ≢ pos 0 }
    /// requires room { InRange SIGNED Self.BITS
    ///     (euclidean_quotient (Self.value self) (Self.value divisor)) }
    /// ensures { Self.value result ≡ euclidean_quotient (Self.value self) (Self.value divisor) }
    /// ```
    ///
    /// Definitions: [`InRange`], [`euclidean_quotient`].
    ///
    /// [`InRange`]: crate::definitions::word_format
    /// [`euclidean_quotient`]: crate::definitions::word_quotient
    #[must_use]
    fn euclid_quotient(self, divisor: Self) -> Self;

    /// Returns the Euclidean remainder. Precondition: the divisor is not 0.
    ///
    /// # Examples
    ///
    /// ```
    /// use zugyelmas::word::Integer;
    ///
    /// assert_eq!((-7_i16).euclid_remainder(2), 1); // never below 0
    /// assert_eq!(i16::MIN.euclid_remainder(-1), 0);
    /// ```
    ///
    /// ```should_panic
    /// # use zugyelmas::word::Integer;
    /// # std::panic::set_hook(Box::new(|_| {}));
    /// 7_i16.euclid_remainder(0); // the divisor is 0
    /// ```
    ///
    /// # Panics
    ///
    /// Panics unless the divisor is not 0.
    ///
    /// # Proved
    ///
    /// ```text
    /// requires { Self.value divisor ≢ pos 0 }
    /// ensures { Self.value result ≡ euclidean_remainder (Self.value self) (Self.value divisor) }
    /// ```
    ///
    /// Definitions: [`euclidean_remainder`].
    ///
    /// [`euclidean_remainder`]: crate::definitions::word_quotient
    #[must_use]
    fn euclid_remainder(self, divisor: Self) -> Self;
}

impl Integer for u16 {
    #[inline]
    fn is_below_zero(self) -> bool {
        false
    }

    #[inline]
    fn is_below(self, other: u16) -> bool {
        self < other
    }

    #[inline]
    fn equals(self, other: u16) -> bool {
        self == other
    }

    #[inline]
    #[track_caller]
    fn plus(self, other: u16) -> u16 {
        debug_assert!(
            self.checked_add(other).is_some(),
            "precondition: the sum fits"
        );
        self + other
    }

    #[inline]
    #[track_caller]
    fn times(self, other: u16) -> u16 {
        debug_assert!(
            self.checked_mul(other).is_some(),
            "precondition: the product fits"
        );
        self * other
    }

    #[inline]
    #[track_caller]
    fn scaled(self, by: u32) -> u16 {
        assert!(
            by < Self::BITS,
            "precondition: the shift is below the width"
        );
        debug_assert!((self << by) >> by == self, "precondition: the number fits");
        self << by
    }

    #[inline]
    #[track_caller]
    fn floored(self, by: u32) -> u16 {
        assert!(
            by < Self::BITS,
            "precondition: the shift is below the width"
        );
        self >> by
    }

    #[inline]
    #[track_caller]
    fn over(self, divisor: u16) -> u16 {
        assert!(divisor != 0, "precondition: the divisor is not 0");
        self / divisor
    }

    #[inline]
    #[track_caller]
    fn remainder(self, divisor: u16) -> u16 {
        assert!(divisor != 0, "precondition: the divisor is not 0");
        self % divisor
    }

    #[inline]
    #[track_caller]
    fn euclid_quotient(self, divisor: u16) -> u16 {
        assert!(divisor != 0, "precondition: the divisor is not 0");
        debug_assert!(
            self.checked_div_euclid(divisor).is_some(),
            "precondition: the number fits"
        );
        self / divisor
    }

    #[inline]
    #[track_caller]
    fn euclid_remainder(self, divisor: u16) -> u16 {
        assert!(divisor != 0, "precondition: the divisor is not 0");
        self % divisor
    }
}

impl Integer for i16 {
    #[inline]
    fn is_below_zero(self) -> bool {
        self < 0
    }

    #[inline]
    fn is_below(self, other: i16) -> bool {
        self < other
    }

    #[inline]
    fn equals(self, other: i16) -> bool {
        self == other
    }

    #[inline]
    #[track_caller]
    fn plus(self, other: i16) -> i16 {
        debug_assert!(
            self.checked_add(other).is_some(),
            "precondition: the sum fits"
        );
        self + other
    }

    #[inline]
    #[track_caller]
    fn times(self, other: i16) -> i16 {
        debug_assert!(
            self.checked_mul(other).is_some(),
            "precondition: the product fits"
        );
        self * other
    }

    #[inline]
    #[track_caller]
    fn scaled(self, by: u32) -> i16 {
        assert!(
            by < Self::BITS,
            "precondition: the shift is below the width"
        );
        debug_assert!((self << by) >> by == self, "precondition: the number fits");
        self << by
    }

    #[inline]
    #[track_caller]
    fn floored(self, by: u32) -> i16 {
        assert!(
            by < Self::BITS,
            "precondition: the shift is below the width"
        );
        self >> by
    }

    #[inline]
    #[track_caller]
    fn over(self, divisor: i16) -> i16 {
        assert!(divisor != 0, "precondition: the divisor is not 0");
        self.wrapping_div(divisor)
    }

    #[inline]
    #[track_caller]
    fn remainder(self, divisor: i16) -> i16 {
        assert!(divisor != 0, "precondition: the divisor is not 0");
        self.wrapping_rem(divisor)
    }

    #[inline]
    #[track_caller]
    fn euclid_quotient(self, divisor: i16) -> i16 {
        assert!(divisor != 0, "precondition: the divisor is not 0");
        debug_assert!(
            self.checked_div_euclid(divisor).is_some(),
            "precondition: the number fits"
        );
        self.wrapping_div_euclid(divisor)
    }

    #[inline]
    #[track_caller]
    fn euclid_remainder(self, divisor: i16) -> i16 {
        assert!(divisor != 0, "precondition: the divisor is not 0");
        self.wrapping_rem_euclid(divisor)
    }
}

impl Integer for u32 {
    #[inline]
    fn is_below_zero(self) -> bool {
        false
    }

    #[inline]
    fn is_below(self, other: u32) -> bool {
        self < other
    }

    #[inline]
    fn equals(self, other: u32) -> bool {
        self == other
    }

    #[inline]
    #[track_caller]
    fn plus(self, other: u32) -> u32 {
        debug_assert!(
            self.checked_add(other).is_some(),
            "precondition: the sum fits"
        );
        self + other
    }

    #[inline]
    #[track_caller]
    fn times(self, other: u32) -> u32 {
        debug_assert!(
            self.checked_mul(other).is_some(),
            "precondition: the product fits"
        );
        self * other
    }

    #[inline]
    #[track_caller]
    fn scaled(self, by: u32) -> u32 {
        assert!(
            by < Self::BITS,
            "precondition: the shift is below the width"
        );
        debug_assert!((self << by) >> by == self, "precondition: the number fits");
        self << by
    }

    #[inline]
    #[track_caller]
    fn floored(self, by: u32) -> u32 {
        assert!(
            by < Self::BITS,
            "precondition: the shift is below the width"
        );
        self >> by
    }

    #[inline]
    #[track_caller]
    fn over(self, divisor: u32) -> u32 {
        assert!(divisor != 0, "precondition: the divisor is not 0");
        self / divisor
    }

    #[inline]
    #[track_caller]
    fn remainder(self, divisor: u32) -> u32 {
        assert!(divisor != 0, "precondition: the divisor is not 0");
        self % divisor
    }

    #[inline]
    #[track_caller]
    fn euclid_quotient(self, divisor: u32) -> u32 {
        assert!(divisor != 0, "precondition: the divisor is not 0");
        debug_assert!(
            self.checked_div_euclid(divisor).is_some(),
            "precondition: the number fits"
        );
        self / divisor
    }

    #[inline]
    #[track_caller]
    fn euclid_remainder(self, divisor: u32) -> u32 {
        assert!(divisor != 0, "precondition: the divisor is not 0");
        self % divisor
    }
}

impl Integer for i32 {
    #[inline]
    fn is_below_zero(self) -> bool {
        self < 0
    }

    #[inline]
    fn is_below(self, other: i32) -> bool {
        self < other
    }

    #[inline]
    fn equals(self, other: i32) -> bool {
        self == other
    }

    #[inline]
    #[track_caller]
    fn plus(self, other: i32) -> i32 {
        debug_assert!(
            self.checked_add(other).is_some(),
            "precondition: the sum fits"
        );
        self + other
    }

    #[inline]
    #[track_caller]
    fn times(self, other: i32) -> i32 {
        debug_assert!(
            self.checked_mul(other).is_some(),
            "precondition: the product fits"
        );
        self * other
    }

    #[inline]
    #[track_caller]
    fn scaled(self, by: u32) -> i32 {
        assert!(
            by < Self::BITS,
            "precondition: the shift is below the width"
        );
        debug_assert!((self << by) >> by == self, "precondition: the number fits");
        self << by
    }

    #[inline]
    #[track_caller]
    fn floored(self, by: u32) -> i32 {
        assert!(
            by < Self::BITS,
            "precondition: the shift is below the width"
        );
        self >> by
    }

    #[inline]
    #[track_caller]
    fn over(self, divisor: i32) -> i32 {
        assert!(divisor != 0, "precondition: the divisor is not 0");
        self.wrapping_div(divisor)
    }

    #[inline]
    #[track_caller]
    fn remainder(self, divisor: i32) -> i32 {
        assert!(divisor != 0, "precondition: the divisor is not 0");
        self.wrapping_rem(divisor)
    }

    #[inline]
    #[track_caller]
    fn euclid_quotient(self, divisor: i32) -> i32 {
        assert!(divisor != 0, "precondition: the divisor is not 0");
        debug_assert!(
            self.checked_div_euclid(divisor).is_some(),
            "precondition: the number fits"
        );
        self.wrapping_div_euclid(divisor)
    }

    #[inline]
    #[track_caller]
    fn euclid_remainder(self, divisor: i32) -> i32 {
        assert!(divisor != 0, "precondition: the divisor is not 0");
        self.wrapping_rem_euclid(divisor)
    }
}

impl Integer for u64 {
    #[inline]
    fn is_below_zero(self) -> bool {
        false
    }

    #[inline]
    fn is_below(self, other: u64) -> bool {
        self < other
    }

    #[inline]
    fn equals(self, other: u64) -> bool {
        self == other
    }

    #[inline]
    #[track_caller]
    fn plus(self, other: u64) -> u64 {
        debug_assert!(
            self.checked_add(other).is_some(),
            "precondition: the sum fits"
        );
        self + other
    }

    #[inline]
    #[track_caller]
    fn times(self, other: u64) -> u64 {
        debug_assert!(
            self.checked_mul(other).is_some(),
            "precondition: the product fits"
        );
        self * other
    }

    #[inline]
    #[track_caller]
    fn scaled(self, by: u32) -> u64 {
        assert!(
            by < Self::BITS,
            "precondition: the shift is below the width"
        );
        debug_assert!((self << by) >> by == self, "precondition: the number fits");
        self << by
    }

    #[inline]
    #[track_caller]
    fn floored(self, by: u32) -> u64 {
        assert!(
            by < Self::BITS,
            "precondition: the shift is below the width"
        );
        self >> by
    }

    #[inline]
    #[track_caller]
    fn over(self, divisor: u64) -> u64 {
        assert!(divisor != 0, "precondition: the divisor is not 0");
        self / divisor
    }

    #[inline]
    #[track_caller]
    fn remainder(self, divisor: u64) -> u64 {
        assert!(divisor != 0, "precondition: the divisor is not 0");
        self % divisor
    }

    #[inline]
    #[track_caller]
    fn euclid_quotient(self, divisor: u64) -> u64 {
        assert!(divisor != 0, "precondition: the divisor is not 0");
        debug_assert!(
            self.checked_div_euclid(divisor).is_some(),
            "precondition: the number fits"
        );
        self / divisor
    }

    #[inline]
    #[track_caller]
    fn euclid_remainder(self, divisor: u64) -> u64 {
        assert!(divisor != 0, "precondition: the divisor is not 0");
        self % divisor
    }
}

impl Integer for i64 {
    #[inline]
    fn is_below_zero(self) -> bool {
        self < 0
    }

    #[inline]
    fn is_below(self, other: i64) -> bool {
        self < other
    }

    #[inline]
    fn equals(self, other: i64) -> bool {
        self == other
    }

    #[inline]
    #[track_caller]
    fn plus(self, other: i64) -> i64 {
        debug_assert!(
            self.checked_add(other).is_some(),
            "precondition: the sum fits"
        );
        self + other
    }

    #[inline]
    #[track_caller]
    fn times(self, other: i64) -> i64 {
        debug_assert!(
            self.checked_mul(other).is_some(),
            "precondition: the product fits"
        );
        self * other
    }

    #[inline]
    #[track_caller]
    fn scaled(self, by: u32) -> i64 {
        assert!(
            by < Self::BITS,
            "precondition: the shift is below the width"
        );
        debug_assert!((self << by) >> by == self, "precondition: the number fits");
        self << by
    }

    #[inline]
    #[track_caller]
    fn floored(self, by: u32) -> i64 {
        assert!(
            by < Self::BITS,
            "precondition: the shift is below the width"
        );
        self >> by
    }

    #[inline]
    #[track_caller]
    fn over(self, divisor: i64) -> i64 {
        assert!(divisor != 0, "precondition: the divisor is not 0");
        self.wrapping_div(divisor)
    }

    #[inline]
    #[track_caller]
    fn remainder(self, divisor: i64) -> i64 {
        assert!(divisor != 0, "precondition: the divisor is not 0");
        self.wrapping_rem(divisor)
    }

    #[inline]
    #[track_caller]
    fn euclid_quotient(self, divisor: i64) -> i64 {
        assert!(divisor != 0, "precondition: the divisor is not 0");
        debug_assert!(
            self.checked_div_euclid(divisor).is_some(),
            "precondition: the number fits"
        );
        self.wrapping_div_euclid(divisor)
    }

    #[inline]
    #[track_caller]
    fn euclid_remainder(self, divisor: i64) -> i64 {
        assert!(divisor != 0, "precondition: the divisor is not 0");
        self.wrapping_rem_euclid(divisor)
    }
}

impl Valued for u128 {
    const BITS: u32 = 128;
}

impl Integer for u128 {
    #[inline]
    fn is_below_zero(self) -> bool {
        false
    }

    #[inline]
    fn is_below(self, other: u128) -> bool {
        self < other
    }

    #[inline]
    fn equals(self, other: u128) -> bool {
        self == other
    }

    #[inline]
    #[track_caller]
    fn plus(self, other: u128) -> u128 {
        debug_assert!(
            self.checked_add(other).is_some(),
            "precondition: the sum fits"
        );
        self + other
    }

    #[inline]
    #[track_caller]
    fn times(self, other: u128) -> u128 {
        debug_assert!(
            self.checked_mul(other).is_some(),
            "precondition: the product fits"
        );
        self * other
    }

    #[inline]
    #[track_caller]
    fn scaled(self, by: u32) -> u128 {
        assert!(
            by < Self::BITS,
            "precondition: the shift is below the width"
        );
        debug_assert!((self << by) >> by == self, "precondition: the number fits");
        self << by
    }

    #[inline]
    #[track_caller]
    fn floored(self, by: u32) -> u128 {
        assert!(
            by < Self::BITS,
            "precondition: the shift is below the width"
        );
        self >> by
    }

    #[inline]
    #[track_caller]
    fn over(self, divisor: u128) -> u128 {
        assert!(divisor != 0, "precondition: the divisor is not 0");
        self / divisor
    }

    #[inline]
    #[track_caller]
    fn remainder(self, divisor: u128) -> u128 {
        assert!(divisor != 0, "precondition: the divisor is not 0");
        self % divisor
    }

    #[inline]
    #[track_caller]
    fn euclid_quotient(self, divisor: u128) -> u128 {
        assert!(divisor != 0, "precondition: the divisor is not 0");
        debug_assert!(
            self.checked_div_euclid(divisor).is_some(),
            "precondition: the number fits"
        );
        self / divisor
    }

    #[inline]
    #[track_caller]
    fn euclid_remainder(self, divisor: u128) -> u128 {
        assert!(divisor != 0, "precondition: the divisor is not 0");
        self % divisor
    }
}

impl Valued for i128 {
    const BITS: u32 = 128;
}

impl Integer for i128 {
    #[inline]
    fn is_below_zero(self) -> bool {
        self < 0
    }

    #[inline]
    fn is_below(self, other: i128) -> bool {
        self < other
    }

    #[inline]
    fn equals(self, other: i128) -> bool {
        self == other
    }

    #[inline]
    #[track_caller]
    fn plus(self, other: i128) -> i128 {
        debug_assert!(
            self.checked_add(other).is_some(),
            "precondition: the sum fits"
        );
        self + other
    }

    #[inline]
    #[track_caller]
    fn times(self, other: i128) -> i128 {
        debug_assert!(
            self.checked_mul(other).is_some(),
            "precondition: the product fits"
        );
        self * other
    }

    #[inline]
    #[track_caller]
    fn scaled(self, by: u32) -> i128 {
        assert!(
            by < Self::BITS,
            "precondition: the shift is below the width"
        );
        debug_assert!((self << by) >> by == self, "precondition: the number fits");
        self << by
    }

    #[inline]
    #[track_caller]
    fn floored(self, by: u32) -> i128 {
        assert!(
            by < Self::BITS,
            "precondition: the shift is below the width"
        );
        self >> by
    }

    #[inline]
    #[track_caller]
    fn over(self, divisor: i128) -> i128 {
        assert!(divisor != 0, "precondition: the divisor is not 0");
        self.wrapping_div(divisor)
    }

    #[inline]
    #[track_caller]
    fn remainder(self, divisor: i128) -> i128 {
        assert!(divisor != 0, "precondition: the divisor is not 0");
        self.wrapping_rem(divisor)
    }

    #[inline]
    #[track_caller]
    fn euclid_quotient(self, divisor: i128) -> i128 {
        assert!(divisor != 0, "precondition: the divisor is not 0");
        debug_assert!(
            self.checked_div_euclid(divisor).is_some(),
            "precondition: the number fits"
        );
        self.wrapping_div_euclid(divisor)
    }

    #[inline]
    #[track_caller]
    fn euclid_remainder(self, divisor: i128) -> i128 {
        assert!(divisor != 0, "precondition: the divisor is not 0");
        self.wrapping_rem_euclid(divisor)
    }
}
