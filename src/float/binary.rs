// Made by `make package` of crates/fixed_float/src/binary.rt, which is proved: changes go there.

//! The float types.

use crate::convert::Castable;
use crate::float::nearest::{nearest_f32, nearest_f64};

/// A float type of IEEE 754: `f32` or `f64`.
pub trait Binary: Copy + crate::sealed::Sealed {
    /// How many binary digits a significand has, including the leading one.
    const DIGITS: u32;

    /// The least float above 0 is `2^-LEAST`.
    const LEAST: u32;

    /// The bits of the positive infinity. Greater bits below the sign's are those of NaNs.
    const INFINITE: u64;

    /// The bits in which only the sign's is 1.
    const SIGN: u64;

    /// Every whole number of so many bits is a float, and so is its quotient by a power of two up to `2^64`.
    const WHOLE: u32;

    /// Returns the same float as an `f64`.
    ///
    /// # Examples
    ///
    /// ```
    /// use zugyelmas::float::Binary;
    ///
    /// assert_eq!(1.5_f32.widened(), 1.5_f64);
    /// assert_eq!(0.1_f32.widened(), 0.100000001490116119384765625); // no digit is lost
    /// ```
    ///
    /// # Proved
    ///
    /// ```text
    /// ensures { result ≡ float self }
    /// ```
    #[must_use]
    fn widened(self) -> f64;

    /// Returns the float with these bits. Precondition: `bits` is below `2 SIGN`, and is not a NaN's.
    ///
    /// # Examples
    ///
    /// ```
    /// use zugyelmas::float::Binary;
    ///
    /// assert_eq!(f32::of_pattern(0x3fc0_0000), 1.5);
    /// assert_eq!(f64::of_pattern(0x7ff0_0000_0000_0000), f64::INFINITY);
    /// ```
    ///
    /// ```should_panic
    /// # use zugyelmas::float::Binary;
    /// # std::panic::set_hook(Box::new(|_| {}));
    /// f32::of_pattern(0x7fc0_0000); // a NaN
    /// ```
    ///
    /// # Panics
    ///
    /// Panics unless the bits are those of a float, and the bits are not those of a NaN.
    ///
    /// # Proved
    ///
    /// ```text
    /// requires width { bits < 2 * SIGN }
    /// requires not_nan { bits % SIGN ≤ INFINITE }
    /// ensures { float result ≡ of_bits format bits }
    /// ```
    #[must_use]
    fn of_pattern(bits: u64) -> Self;

    /// Returns the float `whole / 2^by`. Precondition: `whole` is below `2^WHOLE`, and `by` is at most 64.
    ///
    /// # Examples
    ///
    /// ```
    /// use zugyelmas::float::Binary;
    ///
    /// assert_eq!(f32::quotient(3, 1), 1.5);
    /// assert_eq!(f64::quotient(1, 64), 2.0_f64.powi(-64));
    /// ```
    ///
    /// ```should_panic
    /// # use zugyelmas::float::Binary;
    /// # std::panic::set_hook(Box::new(|_| {}));
    /// f32::quotient(3, 65); // it is divided by more than 2^64
    /// ```
    ///
    /// # Panics
    ///
    /// Panics unless the number is below `2^WHOLE`, and the divisor is at most 2^64.
    ///
    /// # Proved
    ///
    /// ```text
    /// requires whole { whole < 2 ^ WHOLE }
    /// requires by { by ≤ 64 }
    /// ensures { float result ≡ round format false whole (2 ^ by) }
    /// ```
    #[must_use]
    fn quotient(whole: u64, by: u32) -> Self;

    /// Returns the float nearest to `a / 2^frac`, ties to even. Precondition: `frac` is at most the width.
    ///
    /// # Examples
    ///
    /// ```
    /// use zugyelmas::float::Binary;
    ///
    /// assert_eq!(f64::nearest(24_i8, 4), 1.5);
    /// // a tie, to the even float
    /// assert_eq!(f32::nearest(16_777_217_i32, 0), 16_777_216.0);
    /// ```
    ///
    /// ```should_panic
    /// # use zugyelmas::float::Binary;
    /// # std::panic::set_hook(Box::new(|_| {}));
    /// f64::nearest(24_i8, 9); // the fraction is above the width
    /// ```
    ///
    /// # Panics
    ///
    /// Panics unless the fraction frac is at most the width.
    ///
    /// # Proved
    ///
    /// ```text
    /// requires { frac ≤ T.BITS }
    /// ensures { float result ≡ nearest_float format (T.value a) frac }
    /// ```
    ///
    /// Definitions: [`nearest_float`].
    ///
    /// [`nearest_float`]: crate::definitions::float_rows
    #[must_use]
    fn nearest<T: Castable>(a: T, frac: u32) -> Self;

    /// Returns the float with the other sign.
    ///
    /// # Examples
    ///
    /// ```
    /// use zugyelmas::float::Binary;
    ///
    /// assert_eq!(1.5_f32.negated(), -1.5);
    /// assert!(0.0_f64.negated().is_sign_negative()); // -0
    /// ```
    ///
    /// # Proved
    ///
    /// ```text
    /// ensures { float result ≡ neg (float self) }
    /// ```
    #[must_use]
    fn negated(self) -> Self;
}

impl Binary for f32 {
    const DIGITS: u32 = 24;

    const LEAST: u32 = 149;

    const INFINITE: u64 = 0x7f80_0000;

    const SIGN: u64 = 0x8000_0000;

    const WHOLE: u32 = 16;

    #[inline]
    fn widened(self) -> f64 {
        f64::from(self)
    }

    #[inline]
    #[track_caller]
    fn of_pattern(bits: u64) -> f32 {
        assert!(
            bits / 2 < Self::SIGN,
            "precondition: the bits are those of a float"
        );
        assert!(
            bits % Self::SIGN <= Self::INFINITE,
            "precondition: the bits are not those of a NaN"
        );
        f32::from_bits(bits as u32)
    }

    #[inline]
    #[track_caller]
    fn quotient(whole: u64, by: u32) -> f32 {
        assert!(
            whole >> Self::WHOLE == 0,
            "precondition: the number is below `2^WHOLE`"
        );
        assert!(by <= 64, "precondition: the divisor is at most 2^64");
        f32::from(whole as u16) * f32::from_bits((127 - by) << 23)
    }

    #[inline]
    #[track_caller]
    fn nearest<T: Castable>(a: T, frac: u32) -> f32 {
        assert!(
            frac <= T::BITS,
            "precondition: the fraction frac is at most the width"
        );
        nearest_f32(a, frac)
    }

    #[inline]
    fn negated(self) -> f32 {
        -self
    }
}

impl Binary for f64 {
    const DIGITS: u32 = 53;

    const LEAST: u32 = 1074;

    const INFINITE: u64 = 0x7ff0_0000_0000_0000;

    const SIGN: u64 = 0x8000_0000_0000_0000;

    const WHOLE: u32 = 32;

    #[inline]
    fn widened(self) -> f64 {
        self
    }

    #[inline]
    #[track_caller]
    fn of_pattern(bits: u64) -> f64 {
        assert!(
            bits / 2 < Self::SIGN,
            "precondition: the bits are those of a float"
        );
        assert!(
            bits % Self::SIGN <= Self::INFINITE,
            "precondition: the bits are not those of a NaN"
        );
        f64::from_bits(bits)
    }

    #[inline]
    #[track_caller]
    fn quotient(whole: u64, by: u32) -> f64 {
        assert!(
            whole >> Self::WHOLE == 0,
            "precondition: the number is below `2^WHOLE`"
        );
        assert!(by <= 64, "precondition: the divisor is at most 2^64");
        f64::from(whole as u32) * f64::from_bits((1023 - by as u64) << 52)
    }

    #[inline]
    #[track_caller]
    fn nearest<T: Castable>(a: T, frac: u32) -> f64 {
        assert!(
            frac <= T::BITS,
            "precondition: the fraction frac is at most the width"
        );
        nearest_f64(a, frac)
    }

    #[inline]
    fn negated(self) -> f64 {
        -self
    }
}
