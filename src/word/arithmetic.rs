// Made by `make package` of crates/fixed_word/src/arithmetic.rt, which is proved: changes go there.

//! Words with sums, quotients and conversions to integers of twice their width.

use crate::casts::CastSigned;
use crate::casts::CastUnsigned;
use crate::word::integer::Integer;
use crate::word::outcome::{Outcome, Side, side_past};
use crate::word::word::RawWord;

/// A word with its sums and quotients, and an integer that holds its products.
pub trait Arithmetic: RawWord {
    /// The integer of exactly twice the width and of the same signedness. Loops in a wider one are not vectorised.
    type Whole: Integer;

    /// Returns the same value as an integer of twice the width.
    ///
    /// # Examples
    ///
    /// ```
    /// use zugyelmas::word::{Arithmetic, Outcome, Side};
    ///
    /// assert_eq!((-100_i8).whole(), -100_i16);
    /// assert_eq!(200_u8.whole() * 200, 40_000_u16);
    /// ```
    ///
    /// # Proved
    ///
    /// ```text
    /// ensures value { Self.Whole.value result ≡ Self.value self }
    /// ensures in_range { InRange Self.SIGNED Self.BITS (Self.value self) }
    /// ```
    ///
    /// Definitions: [`InRange`].
    ///
    /// [`InRange`]: crate::definitions::word_format
    #[must_use]
    fn whole(self) -> Self::Whole;

    /// Returns the word whose value differs by a multiple of `2^n`, where n is the width.
    ///
    /// # Examples
    ///
    /// ```
    /// use zugyelmas::word::{Arithmetic, Outcome, Side};
    ///
    /// assert_eq!(i8::cut(100), 100);
    /// assert_eq!(i8::cut(200), -56); // 200 - 256
    /// ```
    ///
    /// # Proved
    ///
    /// ```text
    /// ensures { Self.value result ≡ wrap Self.SIGNED Self.BITS (Self.Whole.value whole) }
    /// ```
    ///
    /// Definitions: [`wrap`].
    ///
    /// [`wrap`]: crate::definitions::word_format
    #[must_use]
    fn cut(whole: Self::Whole) -> Self;

    /// Returns the outcome of the sum.
    ///
    /// # Examples
    ///
    /// ```
    /// use zugyelmas::word::{Arithmetic, Outcome, Side};
    ///
    /// assert_eq!(100_i8.sum(27), Outcome { wrapped: 127, side: Side::Fits });
    /// assert_eq!(100_i8.sum(100), Outcome { wrapped: -56, side: Side::Above }); // 200
    /// ```
    ///
    /// # Proved
    ///
    /// ```text
    /// ensures { StandsFor Self.value Self.SIGNED Self.BITS
    ///     (Self.value self +ℤ Self.value other) result }
    /// ```
    #[must_use]
    fn sum(self, other: Self) -> Outcome<Self>;

    /// Returns the outcome of the difference.
    ///
    /// # Examples
    ///
    /// ```
    /// use zugyelmas::word::{Arithmetic, Outcome, Side};
    ///
    /// assert_eq!(5_u8.difference(3), Outcome { wrapped: 2, side: Side::Fits });
    /// assert_eq!(3_u8.difference(5), Outcome { wrapped: 254, side: Side::Below }); // -2
    /// ```
    ///
    /// # Proved
    ///
    /// ```text
    /// ensures { StandsFor Self.value Self.SIGNED Self.BITS
    ///     (Self.value self -ℤ Self.value other) result }
    /// ```
    #[must_use]
    fn difference(self, other: Self) -> Outcome<Self>;

    /// Returns the outcome of the quotient, rounded toward zero. Precondition: the divisor is not 0.
    ///
    /// # Examples
    ///
    /// ```
    /// use zugyelmas::word::{Arithmetic, Outcome, Side};
    ///
    /// assert_eq!((-7_i8).quotient(2), Outcome { wrapped: -3, side: Side::Fits });
    /// // 128
    /// assert_eq!(i8::MIN.quotient(-1), Outcome { wrapped: i8::MIN, side: Side::Above });
    /// ```
    ///
    /// ```should_panic
    /// # use zugyelmas::word::{Arithmetic, Outcome, Side};
    /// # std::panic::set_hook(Box::new(|_| {}));
    /// 7_i8.quotient(0); // the divisor is 0
    /// ```
    ///
    /// # Panics
    ///
    /// Panics unless the divisor is not 0.
    ///
    /// # Proved
    ///
    /// ```text
    /// requires { Self.value divisor ≢ pos 0 }
    /// ensures { StandsFor Self.value Self.SIGNED Self.BITS
    ///     (truncated_quotient (Self.value self) (Self.value divisor)) result }
    /// ```
    ///
    /// Definitions: [`truncated_quotient`].
    ///
    /// [`truncated_quotient`]: crate::definitions::word_quotient
    #[must_use]
    fn quotient(self, divisor: Self) -> Outcome<Self>;

    /// Returns the remainder of the quotient that is rounded toward zero. Precondition: the divisor is not 0.
    ///
    /// # Examples
    ///
    /// ```
    /// use zugyelmas::word::{Arithmetic, Outcome, Side};
    ///
    /// assert_eq!(7_i8.remainder(-2), 1);
    /// assert_eq!((-7_i8).remainder(2), -1); // the sign of the dividend
    /// ```
    ///
    /// ```should_panic
    /// # use zugyelmas::word::{Arithmetic, Outcome, Side};
    /// # std::panic::set_hook(Box::new(|_| {}));
    /// 7_i8.remainder(0); // the divisor is 0
    /// ```
    ///
    /// # Panics
    ///
    /// Panics unless the divisor is not 0.
    ///
    /// # Proved
    ///
    /// ```text
    /// requires { Self.value divisor ≢ pos 0 }
    /// ensures value { Self.value result
    ///     ≡ Self.value self
    ///     -ℤ Self.value divisor *ℤ truncated_quotient (Self.value self) (Self.value divisor) }
    /// ensures in_range { InRange Self.SIGNED Self.BITS (Self.value result) }
    /// ```
    ///
    /// Definitions: [`InRange`], [`truncated_quotient`].
    ///
    /// [`InRange`]: crate::definitions::word_format
    /// [`truncated_quotient`]: crate::definitions::word_quotient
    #[must_use]
    fn remainder(self, divisor: Self) -> Self;

    /// Returns the outcome of the Euclidean quotient. Precondition: the divisor is not 0.
    ///
    /// # Examples
    ///
    /// ```
    /// use zugyelmas::word::{Arithmetic, Outcome, Side};
    ///
    /// assert_eq!((-7_i8).euclid_quotient(2), Outcome { wrapped: -4, side: Side::Fits });
    /// // 128
    /// assert_eq!(i8::MIN.euclid_quotient(-1), Outcome { wrapped: i8::MIN, side: Side::Above });
    /// ```
    ///
    /// ```should_panic
    /// # use zugyelmas::word::{Arithmetic, Outcome, Side};
    /// # std::panic::set_hook(Box::new(|_| {}));
    /// 7_i8.euclid_quotient(0); // the divisor is 0
    /// ```
    ///
    /// # Panics
    ///
    /// Panics unless the divisor is not 0.
    ///
    /// # Proved
    ///
    /// ```text
    /// requires { Self.value divisor ≢ pos 0 }
    /// ensures { StandsFor Self.value Self.SIGNED Self.BITS
    ///     (euclidean_quotient (Self.value self) (Self.value divisor)) result }
    /// ```
    ///
    /// Definitions: [`euclidean_quotient`].
    ///
    /// [`euclidean_quotient`]: crate::definitions::word_quotient
    #[must_use]
    fn euclid_quotient(self, divisor: Self) -> Outcome<Self>;

    /// Returns the Euclidean remainder. Precondition: the divisor is not 0.
    ///
    /// # Examples
    ///
    /// ```
    /// use zugyelmas::word::{Arithmetic, Outcome, Side};
    ///
    /// assert_eq!((-7_i8).euclid_remainder(2), 1); // never below 0
    /// assert_eq!(7_i8.euclid_remainder(-2), 1);
    /// ```
    ///
    /// ```should_panic
    /// # use zugyelmas::word::{Arithmetic, Outcome, Side};
    /// # std::panic::set_hook(Box::new(|_| {}));
    /// 7_i8.euclid_remainder(0); // the divisor is 0
    /// ```
    ///
    /// # Panics
    ///
    /// Panics unless the divisor is not 0.
    ///
    /// # Proved
    ///
    /// ```text
    /// requires { Self.value divisor ≢ pos 0 }
    /// ensures value { Self.value result
    ///     ≡ euclidean_remainder (Self.value self) (Self.value divisor) }
    /// ensures in_range { InRange Self.SIGNED Self.BITS (Self.value result) }
    /// ```
    ///
    /// Definitions: [`InRange`], [`euclidean_remainder`].
    ///
    /// [`InRange`]: crate::definitions::word_format
    /// [`euclidean_remainder`]: crate::definitions::word_quotient
    #[must_use]
    fn euclid_remainder(self, divisor: Self) -> Self;
}

impl Arithmetic for u8 {
    type Whole = u16;

    #[inline]
    fn whole(self) -> u16 {
        u16::from(self)
    }

    #[inline]
    fn cut(whole: u16) -> u8 {
        (whole % (1 << 8)) as u8
    }

    #[inline]
    fn sum(self, other: u8) -> Outcome<u8> {
        let (wrapped, past) = self.overflowing_add(other);
        let side = side_past(past, false);
        Outcome { wrapped, side }
    }

    #[inline]
    fn difference(self, other: u8) -> Outcome<u8> {
        let (wrapped, past) = self.overflowing_sub(other);
        let side = side_past(past, true);
        Outcome { wrapped, side }
    }

    #[inline]
    #[track_caller]
    fn quotient(self, divisor: u8) -> Outcome<u8> {
        assert!(divisor != 0, "precondition: the divisor is not 0");
        Outcome {
            wrapped: self / divisor,
            side: Side::Fits,
        }
    }

    #[inline]
    #[track_caller]
    fn remainder(self, divisor: u8) -> u8 {
        assert!(divisor != 0, "precondition: the divisor is not 0");
        self % divisor
    }

    #[inline]
    #[track_caller]
    fn euclid_quotient(self, divisor: u8) -> Outcome<u8> {
        assert!(divisor != 0, "precondition: the divisor is not 0");
        self.quotient(divisor)
    }

    #[inline]
    #[track_caller]
    fn euclid_remainder(self, divisor: u8) -> u8 {
        assert!(divisor != 0, "precondition: the divisor is not 0");
        self % divisor
    }
}

impl Arithmetic for u16 {
    type Whole = u32;

    #[inline]
    fn whole(self) -> u32 {
        u32::from(self)
    }

    #[inline]
    fn cut(whole: u32) -> u16 {
        (whole % (1 << 16)) as u16
    }

    #[inline]
    fn sum(self, other: u16) -> Outcome<u16> {
        let (wrapped, past) = self.overflowing_add(other);
        let side = side_past(past, false);
        Outcome { wrapped, side }
    }

    #[inline]
    fn difference(self, other: u16) -> Outcome<u16> {
        let (wrapped, past) = self.overflowing_sub(other);
        let side = side_past(past, true);
        Outcome { wrapped, side }
    }

    #[inline]
    #[track_caller]
    fn quotient(self, divisor: u16) -> Outcome<u16> {
        assert!(divisor != 0, "precondition: the divisor is not 0");
        Outcome {
            wrapped: self / divisor,
            side: Side::Fits,
        }
    }

    #[inline]
    #[track_caller]
    fn remainder(self, divisor: u16) -> u16 {
        assert!(divisor != 0, "precondition: the divisor is not 0");
        self % divisor
    }

    #[inline]
    #[track_caller]
    fn euclid_quotient(self, divisor: u16) -> Outcome<u16> {
        assert!(divisor != 0, "precondition: the divisor is not 0");
        self.quotient(divisor)
    }

    #[inline]
    #[track_caller]
    fn euclid_remainder(self, divisor: u16) -> u16 {
        assert!(divisor != 0, "precondition: the divisor is not 0");
        self % divisor
    }
}

impl Arithmetic for u32 {
    type Whole = u64;

    #[inline]
    fn whole(self) -> u64 {
        u64::from(self)
    }

    #[inline]
    fn cut(whole: u64) -> u32 {
        (whole % (1 << 32)) as u32
    }

    #[inline]
    fn sum(self, other: u32) -> Outcome<u32> {
        let (wrapped, past) = self.overflowing_add(other);
        let side = side_past(past, false);
        Outcome { wrapped, side }
    }

    #[inline]
    fn difference(self, other: u32) -> Outcome<u32> {
        let (wrapped, past) = self.overflowing_sub(other);
        let side = side_past(past, true);
        Outcome { wrapped, side }
    }

    #[inline]
    #[track_caller]
    fn quotient(self, divisor: u32) -> Outcome<u32> {
        assert!(divisor != 0, "precondition: the divisor is not 0");
        Outcome {
            wrapped: self / divisor,
            side: Side::Fits,
        }
    }

    #[inline]
    #[track_caller]
    fn remainder(self, divisor: u32) -> u32 {
        assert!(divisor != 0, "precondition: the divisor is not 0");
        self % divisor
    }

    #[inline]
    #[track_caller]
    fn euclid_quotient(self, divisor: u32) -> Outcome<u32> {
        assert!(divisor != 0, "precondition: the divisor is not 0");
        self.quotient(divisor)
    }

    #[inline]
    #[track_caller]
    fn euclid_remainder(self, divisor: u32) -> u32 {
        assert!(divisor != 0, "precondition: the divisor is not 0");
        self % divisor
    }
}

impl Arithmetic for u64 {
    type Whole = u128;

    #[inline]
    fn whole(self) -> u128 {
        u128::from(self)
    }

    #[inline]
    fn cut(whole: u128) -> u64 {
        (whole % (1 << 64)) as u64
    }

    #[inline]
    fn sum(self, other: u64) -> Outcome<u64> {
        let (wrapped, past) = self.overflowing_add(other);
        let side = side_past(past, false);
        Outcome { wrapped, side }
    }

    #[inline]
    fn difference(self, other: u64) -> Outcome<u64> {
        let (wrapped, past) = self.overflowing_sub(other);
        let side = side_past(past, true);
        Outcome { wrapped, side }
    }

    #[inline]
    #[track_caller]
    fn quotient(self, divisor: u64) -> Outcome<u64> {
        assert!(divisor != 0, "precondition: the divisor is not 0");
        Outcome {
            wrapped: self / divisor,
            side: Side::Fits,
        }
    }

    #[inline]
    #[track_caller]
    fn remainder(self, divisor: u64) -> u64 {
        assert!(divisor != 0, "precondition: the divisor is not 0");
        self % divisor
    }

    #[inline]
    #[track_caller]
    fn euclid_quotient(self, divisor: u64) -> Outcome<u64> {
        assert!(divisor != 0, "precondition: the divisor is not 0");
        self.quotient(divisor)
    }

    #[inline]
    #[track_caller]
    fn euclid_remainder(self, divisor: u64) -> u64 {
        assert!(divisor != 0, "precondition: the divisor is not 0");
        self % divisor
    }
}

impl Arithmetic for i8 {
    type Whole = i16;

    #[inline]
    fn whole(self) -> i16 {
        i16::from(self)
    }

    #[inline]
    fn cut(whole: i16) -> i8 {
        u8::cut(whole.cast_unsigned()).cast_signed()
    }

    #[inline]
    fn sum(self, other: i8) -> Outcome<i8> {
        let (wrapped, past) = self.overflowing_add(other);
        let side = side_past(past, self < 0);
        Outcome { wrapped, side }
    }

    #[inline]
    fn difference(self, other: i8) -> Outcome<i8> {
        let (wrapped, past) = self.overflowing_sub(other);
        let side = side_past(past, self < 0);
        Outcome { wrapped, side }
    }

    #[inline]
    #[track_caller]
    fn quotient(self, divisor: i8) -> Outcome<i8> {
        assert!(divisor != 0, "precondition: the divisor is not 0");
        let (wrapped, past) = self.overflowing_div(divisor);
        let side = side_past(past, false);
        Outcome { wrapped, side }
    }

    #[inline]
    #[track_caller]
    fn remainder(self, divisor: i8) -> i8 {
        assert!(divisor != 0, "precondition: the divisor is not 0");
        self.wrapping_rem(divisor)
    }

    #[inline]
    #[track_caller]
    fn euclid_quotient(self, divisor: i8) -> Outcome<i8> {
        assert!(divisor != 0, "precondition: the divisor is not 0");
        let (wrapped, past) = self.overflowing_div_euclid(divisor);
        let side = side_past(past, false);
        Outcome { wrapped, side }
    }

    #[inline]
    #[track_caller]
    fn euclid_remainder(self, divisor: i8) -> i8 {
        assert!(divisor != 0, "precondition: the divisor is not 0");
        self.wrapping_rem_euclid(divisor)
    }
}

impl Arithmetic for i16 {
    type Whole = i32;

    #[inline]
    fn whole(self) -> i32 {
        i32::from(self)
    }

    #[inline]
    fn cut(whole: i32) -> i16 {
        u16::cut(whole.cast_unsigned()).cast_signed()
    }

    #[inline]
    fn sum(self, other: i16) -> Outcome<i16> {
        let (wrapped, past) = self.overflowing_add(other);
        let side = side_past(past, self < 0);
        Outcome { wrapped, side }
    }

    #[inline]
    fn difference(self, other: i16) -> Outcome<i16> {
        let (wrapped, past) = self.overflowing_sub(other);
        let side = side_past(past, self < 0);
        Outcome { wrapped, side }
    }

    #[inline]
    #[track_caller]
    fn quotient(self, divisor: i16) -> Outcome<i16> {
        assert!(divisor != 0, "precondition: the divisor is not 0");
        let (wrapped, past) = self.overflowing_div(divisor);
        let side = side_past(past, false);
        Outcome { wrapped, side }
    }

    #[inline]
    #[track_caller]
    fn remainder(self, divisor: i16) -> i16 {
        assert!(divisor != 0, "precondition: the divisor is not 0");
        self.wrapping_rem(divisor)
    }

    #[inline]
    #[track_caller]
    fn euclid_quotient(self, divisor: i16) -> Outcome<i16> {
        assert!(divisor != 0, "precondition: the divisor is not 0");
        let (wrapped, past) = self.overflowing_div_euclid(divisor);
        let side = side_past(past, false);
        Outcome { wrapped, side }
    }

    #[inline]
    #[track_caller]
    fn euclid_remainder(self, divisor: i16) -> i16 {
        assert!(divisor != 0, "precondition: the divisor is not 0");
        self.wrapping_rem_euclid(divisor)
    }
}

impl Arithmetic for i32 {
    type Whole = i64;

    #[inline]
    fn whole(self) -> i64 {
        i64::from(self)
    }

    #[inline]
    fn cut(whole: i64) -> i32 {
        u32::cut(whole.cast_unsigned()).cast_signed()
    }

    #[inline]
    fn sum(self, other: i32) -> Outcome<i32> {
        let (wrapped, past) = self.overflowing_add(other);
        let side = side_past(past, self < 0);
        Outcome { wrapped, side }
    }

    #[inline]
    fn difference(self, other: i32) -> Outcome<i32> {
        let (wrapped, past) = self.overflowing_sub(other);
        let side = side_past(past, self < 0);
        Outcome { wrapped, side }
    }

    #[inline]
    #[track_caller]
    fn quotient(self, divisor: i32) -> Outcome<i32> {
        assert!(divisor != 0, "precondition: the divisor is not 0");
        let (wrapped, past) = self.overflowing_div(divisor);
        let side = side_past(past, false);
        Outcome { wrapped, side }
    }

    #[inline]
    #[track_caller]
    fn remainder(self, divisor: i32) -> i32 {
        assert!(divisor != 0, "precondition: the divisor is not 0");
        self.wrapping_rem(divisor)
    }

    #[inline]
    #[track_caller]
    fn euclid_quotient(self, divisor: i32) -> Outcome<i32> {
        assert!(divisor != 0, "precondition: the divisor is not 0");
        let (wrapped, past) = self.overflowing_div_euclid(divisor);
        let side = side_past(past, false);
        Outcome { wrapped, side }
    }

    #[inline]
    #[track_caller]
    fn euclid_remainder(self, divisor: i32) -> i32 {
        assert!(divisor != 0, "precondition: the divisor is not 0");
        self.wrapping_rem_euclid(divisor)
    }
}

impl Arithmetic for i64 {
    type Whole = i128;

    #[inline]
    fn whole(self) -> i128 {
        i128::from(self)
    }

    #[inline]
    fn cut(whole: i128) -> i64 {
        u64::cut(whole.cast_unsigned()).cast_signed()
    }

    #[inline]
    fn sum(self, other: i64) -> Outcome<i64> {
        let (wrapped, past) = self.overflowing_add(other);
        let side = side_past(past, self < 0);
        Outcome { wrapped, side }
    }

    #[inline]
    fn difference(self, other: i64) -> Outcome<i64> {
        let (wrapped, past) = self.overflowing_sub(other);
        let side = side_past(past, self < 0);
        Outcome { wrapped, side }
    }

    #[inline]
    #[track_caller]
    fn quotient(self, divisor: i64) -> Outcome<i64> {
        assert!(divisor != 0, "precondition: the divisor is not 0");
        let (wrapped, past) = self.overflowing_div(divisor);
        let side = side_past(past, false);
        Outcome { wrapped, side }
    }

    #[inline]
    #[track_caller]
    fn remainder(self, divisor: i64) -> i64 {
        assert!(divisor != 0, "precondition: the divisor is not 0");
        self.wrapping_rem(divisor)
    }

    #[inline]
    #[track_caller]
    fn euclid_quotient(self, divisor: i64) -> Outcome<i64> {
        assert!(divisor != 0, "precondition: the divisor is not 0");
        let (wrapped, past) = self.overflowing_div_euclid(divisor);
        let side = side_past(past, false);
        Outcome { wrapped, side }
    }

    #[inline]
    #[track_caller]
    fn euclid_remainder(self, divisor: i64) -> i64 {
        assert!(divisor != 0, "precondition: the divisor is not 0");
        self.wrapping_rem_euclid(divisor)
    }
}
