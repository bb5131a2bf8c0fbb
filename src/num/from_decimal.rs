// Made by `make package` of crates/fixed_num/src/from_decimal.rt, which is proved: changes go there.

//! Numbers from decimals, by each policy.

use crate::decimal::{DecimalError, decimal_of, exact_decimal_of};
use crate::num::format::{Fixed, Held, Number};
use crate::word::{
    Outcome, Rounding, Word, checked_of, overflowing_of, saturating_of, strict_of, wrapping_of,
};
use core::str::FromStr;

/// Numbers from decimals. They are rounded to the nearest unit, ties to even, or as named in the forms `.._round`.
/// Each call returns an error if the text is not a decimal. Precondition of each call: F is at most the width.
pub trait FromDecimal: Number {
    /// Returns the number, or the error `Overflow` if it does not fit. (This is `from_str` of `fixed`.)
    ///
    /// # Examples
    ///
    /// ```
    /// use zugyelmas::decimal::DecimalError;
    /// use zugyelmas::num::FromDecimal;
    /// use zugyelmas::prelude::*;
    /// type Number = FixedI8<4>; // from -8 to 7.9375
    ///
    /// assert_eq!(Number::checked_from_str("1.5"), Ok(Number::from_bits(24)));
    /// // half a unit: a tie, to the even number
    /// assert_eq!(Number::checked_from_str("0.03125"), Ok(Number::ZERO));
    /// assert_eq!(Number::checked_from_str("9"), Err(DecimalError::Overflow));
    /// assert_eq!(Number::checked_from_str(""), Err(DecimalError::NoDigits));
    /// ```
    ///
    /// # Compile errors
    ///
    /// Compiles only if the fraction F is at most the width.
    ///
    /// # Proved
    ///
    /// ```text
    /// requires { Self.FRACTION ≤ Self.BITS }
    /// ensures { result_map Self.number result
    ///     ≡ checked_decimal Self.SIGNED Self.BITS (decimal_row text.now Self.FRACTION Even) }
    /// ```
    ///
    /// Definitions: [`decimal_row`], [`checked_decimal`], [`result_map`].
    ///
    /// [`decimal_row`]: crate::definitions::decimal_decimal
    /// [`checked_decimal`]: crate::definitions::decimal_rows
    /// [`result_map`]: crate::definitions::decimal_rows
    fn checked_from_str(text: &str) -> Result<Self, DecimalError>;

    /// Returns the nearest number that fits.
    ///
    /// # Examples
    ///
    /// ```
    /// use zugyelmas::decimal::DecimalError;
    /// use zugyelmas::num::FromDecimal;
    /// use zugyelmas::prelude::*;
    /// type Number = FixedI8<4>; // from -8 to 7.9375
    ///
    /// assert_eq!(Number::saturating_from_str("1.5"), Ok(Number::from_bits(24)));
    /// assert_eq!(Number::saturating_from_str("9"), Ok(Number::MAX)); // 9 does not fit
    /// assert_eq!(Number::saturating_from_str(""), Err(DecimalError::NoDigits));
    /// ```
    ///
    /// # Compile errors
    ///
    /// Compiles only if the fraction F is at most the width.
    ///
    /// # Proved
    ///
    /// ```text
    /// requires { Self.FRACTION ≤ Self.BITS }
    /// ensures { result_map Self.number result
    ///     ≡ result_map (clamp Self.SIGNED Self.BITS) (decimal_row text.now Self.FRACTION Even) }
    /// ```
    ///
    /// Definitions: [`clamp`], [`decimal_row`], [`result_map`].
    ///
    /// [`clamp`]: crate::definitions::word_format
    /// [`decimal_row`]: crate::definitions::decimal_decimal
    /// [`result_map`]: crate::definitions::decimal_rows
    fn saturating_from_str(text: &str) -> Result<Self, DecimalError>;

    /// Returns the number, wrapped.
    ///
    /// # Examples
    ///
    /// ```
    /// use zugyelmas::decimal::DecimalError;
    /// use zugyelmas::num::FromDecimal;
    /// use zugyelmas::prelude::*;
    /// type Number = FixedI8<4>; // from -8 to 7.9375
    ///
    /// assert_eq!(Number::wrapping_from_str("1.5"), Ok(Number::from_bits(24)));
    /// assert_eq!(Number::wrapping_from_str("9"), Ok(Number::from_bits(-112))); // 9 - 16
    /// assert_eq!(Number::wrapping_from_str(""), Err(DecimalError::NoDigits));
    /// ```
    ///
    /// # Compile errors
    ///
    /// Compiles only if the fraction F is at most the width.
    ///
    /// # Proved
    ///
    /// ```text
    /// requires { Self.FRACTION ≤ Self.BITS }
    /// ensures { result_map Self.number result
    ///     ≡ result_map (wrap Self.SIGNED Self.BITS) (decimal_row text.now Self.FRACTION Even) }
    /// ```
    ///
    /// Definitions: [`wrap`], [`decimal_row`], [`result_map`].
    ///
    /// [`wrap`]: crate::definitions::word_format
    /// [`decimal_row`]: crate::definitions::decimal_decimal
    /// [`result_map`]: crate::definitions::decimal_rows
    fn wrapping_from_str(text: &str) -> Result<Self, DecimalError>;

    /// Returns the number, wrapped, and whether it does not fit.
    ///
    /// # Examples
    ///
    /// ```
    /// use zugyelmas::decimal::DecimalError;
    /// use zugyelmas::num::FromDecimal;
    /// use zugyelmas::prelude::*;
    /// type Number = FixedI8<4>; // from -8 to 7.9375
    ///
    /// assert_eq!(Number::overflowing_from_str("1.5"), Ok((Number::from_bits(24), false)));
    /// // 9 - 16
    /// assert_eq!(Number::overflowing_from_str("9"), Ok((Number::from_bits(-112), true)));
    /// assert_eq!(Number::overflowing_from_str(""), Err(DecimalError::NoDigits));
    /// ```
    ///
    /// # Compile errors
    ///
    /// Compiles only if the fraction F is at most the width.
    ///
    /// # Proved
    ///
    /// ```text
    /// requires { Self.FRACTION ≤ Self.BITS }
    /// ensures { result_map (λ r. (Self.number r.0, r.1)) result
    ///     ≡ result_map {B = ℤ × Bool} (λ x. (wrap Self.SIGNED Self.BITS x, not (fits Self.SIGNED Self.BITS x)))
    ///     (decimal_row text.now Self.FRACTION Even) }
    /// ```
    ///
    /// Definitions: [`fits`], [`wrap`], [`decimal_row`], [`result_map`].
    ///
    /// [`fits`]: crate::definitions::word_format
    /// [`wrap`]: crate::definitions::word_format
    /// [`decimal_row`]: crate::definitions::decimal_decimal
    /// [`result_map`]: crate::definitions::decimal_rows
    fn overflowing_from_str(text: &str) -> Result<(Self, bool), DecimalError>;

    /// Returns the number. Precondition: it fits.
    ///
    /// # Examples
    ///
    /// ```
    /// use zugyelmas::decimal::DecimalError;
    /// use zugyelmas::num::FromDecimal;
    /// use zugyelmas::prelude::*;
    /// type Number = FixedI8<4>; // from -8 to 7.9375
    ///
    /// assert_eq!(Number::strict_from_str("1.5"), Ok(Number::from_bits(24)));
    /// assert_eq!(Number::strict_from_str(""), Err(DecimalError::NoDigits));
    /// ```
    ///
    /// ```should_panic
    /// # use zugyelmas::decimal::DecimalError;
    /// # use zugyelmas::num::FromDecimal;
    /// # use zugyelmas::prelude::*;
    /// # type Number = FixedI8<4>; // from -8 to 7.9375
    /// # std::panic::set_hook(Box::new(|_| {}));
    /// Number::strict_from_str("9"); // 9 does not fit
    /// ```
    ///
    /// # Compile errors
    ///
    /// Compiles only if the fraction F is at most the width.
    ///
    /// # Panics
    ///
    /// Panics unless the number fits.
    ///
    /// # Proved
    ///
    /// ```text
    /// requires fraction { Self.FRACTION ≤ Self.BITS }
    /// requires fits { IfOk (decimal_row text.now Self.FRACTION Even) (InRange Self.SIGNED Self.BITS) }
    /// ensures { result_map Self.number result ≡ decimal_row text.now Self.FRACTION Even }
    /// ```
    ///
    /// Definitions: [`InRange`], [`fits`], [`decimal_row`], [`result_map`].
    ///
    /// [`InRange`]: crate::definitions::word_format
    /// [`fits`]: crate::definitions::word_format
    /// [`decimal_row`]: crate::definitions::decimal_decimal
    /// [`result_map`]: crate::definitions::decimal_rows
    fn strict_from_str(text: &str) -> Result<Self, DecimalError>;

    /// Returns the number. Precondition: it fits.
    ///
    /// # Examples
    ///
    /// ```
    /// use zugyelmas::decimal::DecimalError;
    /// use zugyelmas::num::FromDecimal;
    /// use zugyelmas::prelude::*;
    /// type Number = FixedI8<4>; // from -8 to 7.9375
    ///
    /// assert_eq!(Number::unwrapped_from_str("1.5"), Ok(Number::from_bits(24)));
    /// assert_eq!(Number::unwrapped_from_str(""), Err(DecimalError::NoDigits));
    /// ```
    ///
    /// ```should_panic
    /// # use zugyelmas::decimal::DecimalError;
    /// # use zugyelmas::num::FromDecimal;
    /// # use zugyelmas::prelude::*;
    /// # type Number = FixedI8<4>; // from -8 to 7.9375
    /// # std::panic::set_hook(Box::new(|_| {}));
    /// Number::unwrapped_from_str("9"); // 9 does not fit
    /// ```
    ///
    /// # Compile errors
    ///
    /// Compiles only if the fraction F is at most the width.
    ///
    /// # Panics
    ///
    /// Panics unless the number fits.
    ///
    /// # Proved
    ///
    /// ```text
    /// requires fraction { Self.FRACTION ≤ Self.BITS }
    /// requires fits { IfOk (decimal_row text.now Self.FRACTION Even) (InRange Self.SIGNED Self.BITS) }
    /// ensures { result_map Self.number result ≡ decimal_row text.now Self.FRACTION Even }
    /// ```
    ///
    /// Definitions: [`InRange`], [`fits`], [`decimal_row`], [`result_map`].
    ///
    /// [`InRange`]: crate::definitions::word_format
    /// [`fits`]: crate::definitions::word_format
    /// [`decimal_row`]: crate::definitions::decimal_decimal
    /// [`result_map`]: crate::definitions::decimal_rows
    fn unwrapped_from_str(text: &str) -> Result<Self, DecimalError>;

    /// Returns the number without rounding. Fails with `Inexact` if the decimal lies between two multiples of the
    /// unit, and otherwise with `Overflow` if it does not fit. (`fixed` does not have this call.)
    ///
    /// # Examples
    ///
    /// ```
    /// use zugyelmas::decimal::DecimalError;
    /// use zugyelmas::num::FromDecimal;
    /// use zugyelmas::prelude::*;
    /// type Number = FixedI8<4>; // from -8 to 7.9375
    ///
    /// assert_eq!(Number::from_str_exact("1.50"), Ok(Number::from_bits(24)));
    /// // 24.16 units
    /// assert_eq!(Number::from_str_exact("1.51"), Err(DecimalError::Inexact));
    /// assert_eq!(Number::from_str_exact("9"), Err(DecimalError::Overflow));
    /// ```
    ///
    /// # Compile errors
    ///
    /// Compiles only if the fraction F is at most the width.
    ///
    /// # Proved
    ///
    /// ```text
    /// requires { Self.FRACTION ≤ Self.BITS }
    /// ensures { result_map Self.number result
    ///     ≡ checked_decimal Self.SIGNED Self.BITS (exact_row text.now Self.FRACTION) }
    /// ```
    ///
    /// Definitions: [`exact_row`], [`checked_decimal`], [`result_map`].
    ///
    /// [`exact_row`]: crate::definitions::decimal_decimal
    /// [`checked_decimal`]: crate::definitions::decimal_rows
    /// [`result_map`]: crate::definitions::decimal_rows
    fn from_str_exact(text: &str) -> Result<Self, DecimalError>;

    /// Returns the number, rounded as named, or the error `Overflow` if it does not fit.
    ///
    /// # Examples
    ///
    /// ```
    /// use zugyelmas::decimal::DecimalError;
    /// use zugyelmas::num::FromDecimal;
    /// use zugyelmas::prelude::*;
    /// use zugyelmas::word::Rounding;
    /// type Number = FixedI8<4>; // from -8 to 7.9375
    ///
    /// // 1.6 units
    /// assert_eq!(Number::checked_from_str_round("0.1", Rounding::Down), Ok(Number::from_bits(1)));
    /// assert_eq!(Number::checked_from_str_round("-0.1", Rounding::Down), Ok(Number::from_bits(-2)));
    /// assert_eq!(Number::checked_from_str_round("9", Rounding::Down), Err(DecimalError::Overflow));
    /// ```
    ///
    /// # Compile errors
    ///
    /// Compiles only if the fraction F is at most the width.
    ///
    /// # Proved
    ///
    /// ```text
    /// requires { Self.FRACTION ≤ Self.BITS }
    /// ensures { result_map Self.number result
    ///     ≡ checked_decimal Self.SIGNED Self.BITS (decimal_row text.now Self.FRACTION rounding) }
    /// ```
    ///
    /// Definitions: [`decimal_row`], [`checked_decimal`], [`result_map`].
    ///
    /// [`decimal_row`]: crate::definitions::decimal_decimal
    /// [`checked_decimal`]: crate::definitions::decimal_rows
    /// [`result_map`]: crate::definitions::decimal_rows
    fn checked_from_str_round(text: &str, rounding: Rounding) -> Result<Self, DecimalError>;

    /// Returns the nearest number that fits, rounded as named.
    ///
    /// # Examples
    ///
    /// ```
    /// use zugyelmas::decimal::DecimalError;
    /// use zugyelmas::num::FromDecimal;
    /// use zugyelmas::prelude::*;
    /// use zugyelmas::word::Rounding;
    /// type Number = FixedI8<4>; // from -8 to 7.9375
    ///
    /// assert_eq!(Number::saturating_from_str_round("-0.1", Rounding::Zero), Ok(Number::from_bits(-1)));
    /// // 9 does not fit
    /// assert_eq!(Number::saturating_from_str_round("9", Rounding::Zero), Ok(Number::MAX));
    /// ```
    ///
    /// # Compile errors
    ///
    /// Compiles only if the fraction F is at most the width.
    ///
    /// # Proved
    ///
    /// ```text
    /// requires { Self.FRACTION ≤ Self.BITS }
    /// ensures { result_map Self.number result
    ///     ≡ result_map (clamp Self.SIGNED Self.BITS) (decimal_row text.now Self.FRACTION rounding) }
    /// ```
    ///
    /// Definitions: [`clamp`], [`decimal_row`], [`result_map`].
    ///
    /// [`clamp`]: crate::definitions::word_format
    /// [`decimal_row`]: crate::definitions::decimal_decimal
    /// [`result_map`]: crate::definitions::decimal_rows
    fn saturating_from_str_round(text: &str, rounding: Rounding) -> Result<Self, DecimalError>;

    /// Returns the number, rounded as named and wrapped.
    ///
    /// # Examples
    ///
    /// ```
    /// use zugyelmas::decimal::DecimalError;
    /// use zugyelmas::num::FromDecimal;
    /// use zugyelmas::prelude::*;
    /// use zugyelmas::word::Rounding;
    /// type Number = FixedI8<4>; // from -8 to 7.9375
    ///
    /// // 1.6 units
    /// assert_eq!(Number::wrapping_from_str_round("0.1", Rounding::Even), Ok(Number::from_bits(2)));
    /// // 9 - 16
    /// assert_eq!(Number::wrapping_from_str_round("9", Rounding::Even), Ok(Number::from_bits(-112)));
    /// ```
    ///
    /// # Compile errors
    ///
    /// Compiles only if the fraction F is at most the width.
    ///
    /// # Proved
    ///
    /// ```text
    /// requires { Self.FRACTION ≤ Self.BITS }
    /// ensures { result_map Self.number result
    ///     ≡ result_map (wrap Self.SIGNED Self.BITS) (decimal_row text.now Self.FRACTION rounding) }
    /// ```
    ///
    /// Definitions: [`wrap`], [`decimal_row`], [`result_map`].
    ///
    /// [`wrap`]: crate::definitions::word_format
    /// [`decimal_row`]: crate::definitions::decimal_decimal
    /// [`result_map`]: crate::definitions::decimal_rows
    fn wrapping_from_str_round(text: &str, rounding: Rounding) -> Result<Self, DecimalError>;

    /// Returns the number, rounded as named and wrapped, and whether it does not fit.
    ///
    /// # Examples
    ///
    /// ```
    /// use zugyelmas::decimal::DecimalError;
    /// use zugyelmas::num::FromDecimal;
    /// use zugyelmas::prelude::*;
    /// use zugyelmas::word::Rounding;
    /// type Number = FixedI8<4>; // from -8 to 7.9375
    ///
    /// assert_eq!(Number::overflowing_from_str_round("0.1", Rounding::Down), Ok((Number::from_bits(1), false)));
    /// assert_eq!(Number::overflowing_from_str_round("9", Rounding::Down), Ok((Number::from_bits(-112), true)));
    /// ```
    ///
    /// # Compile errors
    ///
    /// Compiles only if the fraction F is at most the width.
    ///
    /// # Proved
    ///
    /// ```text
    /// requires { Self.FRACTION ≤ Self.BITS }
    /// ensures { result_map (λ r. (Self.number r.0, r.1)) result
    ///     ≡ result_map {B = ℤ × Bool} (λ x. (wrap Self.SIGNED Self.BITS x, not (fits Self.SIGNED Self.BITS x)))
    ///     (decimal_row text.now Self.FRACTION rounding) }
    /// ```
    ///
    /// Definitions: [`fits`], [`wrap`], [`decimal_row`], [`result_map`].
    ///
    /// [`fits`]: crate::definitions::word_format
    /// [`wrap`]: crate::definitions::word_format
    /// [`decimal_row`]: crate::definitions::decimal_decimal
    /// [`result_map`]: crate::definitions::decimal_rows
    fn overflowing_from_str_round(
        text: &str,
        rounding: Rounding,
    ) -> Result<(Self, bool), DecimalError>;

    /// Returns the number, rounded as named. Precondition: it fits.
    ///
    /// # Examples
    ///
    /// ```
    /// use zugyelmas::decimal::DecimalError;
    /// use zugyelmas::num::FromDecimal;
    /// use zugyelmas::prelude::*;
    /// use zugyelmas::word::Rounding;
    /// type Number = FixedI8<4>; // from -8 to 7.9375
    ///
    /// // 1.6 units
    /// assert_eq!(Number::strict_from_str_round("0.1", Rounding::Down), Ok(Number::from_bits(1)));
    /// ```
    ///
    /// ```should_panic
    /// # use zugyelmas::decimal::DecimalError;
    /// # use zugyelmas::num::FromDecimal;
    /// # use zugyelmas::prelude::*;
    /// # use zugyelmas::word::Rounding;
    /// # type Number = FixedI8<4>; // from -8 to 7.9375
    /// # std::panic::set_hook(Box::new(|_| {}));
    /// Number::strict_from_str_round("9", Rounding::Down); // 9 does not fit
    /// ```
    ///
    /// # Compile errors
    ///
    /// Compiles only if the fraction F is at most the width.
    ///
    /// # Panics
    ///
    /// Panics unless the number fits.
    ///
    /// # Proved
    ///
    /// ```text
    /// requires fraction { Self.FRACTION ≤ Self.BITS }
    /// requires fits { IfOk (decimal_row text.now Self.FRACTION rounding) (InRange Self.SIGNED Self.BITS) }
    /// ensures { result_map Self.number result ≡ decimal_row text.now Self.FRACTION rounding }
    /// ```
    ///
    /// Definitions: [`InRange`], [`fits`], [`decimal_row`], [`result_map`].
    ///
    /// [`InRange`]: crate::definitions::word_format
    /// [`fits`]: crate::definitions::word_format
    /// [`decimal_row`]: crate::definitions::decimal_decimal
    /// [`result_map`]: crate::definitions::decimal_rows
    fn strict_from_str_round(text: &str, rounding: Rounding) -> Result<Self, DecimalError>;

    /// Returns the number, rounded as named. Precondition: it fits.
    ///
    /// # Examples
    ///
    /// ```
    /// use zugyelmas::decimal::DecimalError;
    /// use zugyelmas::num::FromDecimal;
    /// use zugyelmas::prelude::*;
    /// use zugyelmas::word::Rounding;
    /// type Number = FixedI8<4>; // from -8 to 7.9375
    ///
    /// // 1.6 units
    /// assert_eq!(Number::unwrapped_from_str_round("0.1", Rounding::Even), Ok(Number::from_bits(2)));
    /// ```
    ///
    /// ```should_panic
    /// # use zugyelmas::decimal::DecimalError;
    /// # use zugyelmas::num::FromDecimal;
    /// # use zugyelmas::prelude::*;
    /// # use zugyelmas::word::Rounding;
    /// # type Number = FixedI8<4>; // from -8 to 7.9375
    /// # std::panic::set_hook(Box::new(|_| {}));
    /// Number::unwrapped_from_str_round("9", Rounding::Even); // 9 does not fit
    /// ```
    ///
    /// # Compile errors
    ///
    /// Compiles only if the fraction F is at most the width.
    ///
    /// # Panics
    ///
    /// Panics unless the number fits.
    ///
    /// # Proved
    ///
    /// ```text
    /// requires fraction { Self.FRACTION ≤ Self.BITS }
    /// requires fits { IfOk (decimal_row text.now Self.FRACTION rounding) (InRange Self.SIGNED Self.BITS) }
    /// ensures { result_map Self.number result ≡ decimal_row text.now Self.FRACTION rounding }
    /// ```
    ///
    /// Definitions: [`InRange`], [`fits`], [`decimal_row`], [`result_map`].
    ///
    /// [`InRange`]: crate::definitions::word_format
    /// [`fits`]: crate::definitions::word_format
    /// [`decimal_row`]: crate::definitions::decimal_decimal
    /// [`result_map`]: crate::definitions::decimal_rows
    fn unwrapped_from_str_round(text: &str, rounding: Rounding) -> Result<Self, DecimalError>;
}

impl<T: Word, const F: u32> FromDecimal for Fixed<T, F> {
    #[track_caller]
    fn checked_from_str(text: &str) -> Result<Self, DecimalError> {
        const {
            assert!(
                F <= T::BITS,
                "precondition: the fraction F is at most the width"
            )
        };
        Self::checked_from_str_round(text, Rounding::Even)
    }

    #[track_caller]
    fn saturating_from_str(text: &str) -> Result<Self, DecimalError> {
        const {
            assert!(
                F <= T::BITS,
                "precondition: the fraction F is at most the width"
            )
        };
        Self::saturating_from_str_round(text, Rounding::Even)
    }

    #[track_caller]
    fn wrapping_from_str(text: &str) -> Result<Self, DecimalError> {
        const {
            assert!(
                F <= T::BITS,
                "precondition: the fraction F is at most the width"
            )
        };
        Self::wrapping_from_str_round(text, Rounding::Even)
    }

    #[track_caller]
    fn overflowing_from_str(text: &str) -> Result<(Self, bool), DecimalError> {
        const {
            assert!(
                F <= T::BITS,
                "precondition: the fraction F is at most the width"
            )
        };
        Self::overflowing_from_str_round(text, Rounding::Even)
    }

    #[track_caller]
    fn strict_from_str(text: &str) -> Result<Self, DecimalError> {
        const {
            assert!(
                F <= T::BITS,
                "precondition: the fraction F is at most the width"
            )
        };
        Self::strict_from_str_round(text, Rounding::Even)
    }

    #[track_caller]
    fn unwrapped_from_str(text: &str) -> Result<Self, DecimalError> {
        const {
            assert!(
                F <= T::BITS,
                "precondition: the fraction F is at most the width"
            )
        };
        Self::strict_from_str_round(text, Rounding::Even)
    }

    #[track_caller]
    fn from_str_exact(text: &str) -> Result<Self, DecimalError> {
        const {
            assert!(
                F <= T::BITS,
                "precondition: the fraction F is at most the width"
            )
        };
        match exact_decimal_of(text.as_bytes(), F) {
            Ok(outcome) => fitting(outcome),
            Err(error) => Err(error),
        }
    }

    #[track_caller]
    fn checked_from_str_round(text: &str, rounding: Rounding) -> Result<Self, DecimalError> {
        const {
            assert!(
                F <= T::BITS,
                "precondition: the fraction F is at most the width"
            )
        };
        match decimal_of(text.as_bytes(), F, rounding) {
            Ok(outcome) => fitting(outcome),
            Err(error) => Err(error),
        }
    }

    #[track_caller]
    fn saturating_from_str_round(text: &str, rounding: Rounding) -> Result<Self, DecimalError> {
        const {
            assert!(
                F <= T::BITS,
                "precondition: the fraction F is at most the width"
            )
        };
        match decimal_of(text.as_bytes(), F, rounding) {
            Ok(outcome) => Ok(Fixed {
                bits: saturating_of(outcome),
            }),
            Err(error) => Err(error),
        }
    }

    #[track_caller]
    fn wrapping_from_str_round(text: &str, rounding: Rounding) -> Result<Self, DecimalError> {
        const {
            assert!(
                F <= T::BITS,
                "precondition: the fraction F is at most the width"
            )
        };
        match decimal_of(text.as_bytes(), F, rounding) {
            Ok(outcome) => Ok(Fixed {
                bits: wrapping_of(outcome),
            }),
            Err(error) => Err(error),
        }
    }

    #[track_caller]
    fn overflowing_from_str_round(
        text: &str,
        rounding: Rounding,
    ) -> Result<(Self, bool), DecimalError> {
        const {
            assert!(
                F <= T::BITS,
                "precondition: the fraction F is at most the width"
            )
        };
        match decimal_of(text.as_bytes(), F, rounding) {
            Ok(outcome) => {
                let (bits, past) = overflowing_of(outcome);
                Ok((Fixed { bits }, past))
            }
            Err(error) => Err(error),
        }
    }

    #[track_caller]
    fn strict_from_str_round(text: &str, rounding: Rounding) -> Result<Self, DecimalError> {
        const {
            assert!(
                F <= T::BITS,
                "precondition: the fraction F is at most the width"
            )
        };
        match decimal_of(text.as_bytes(), F, rounding) {
            Ok(outcome) => Ok(Fixed {
                bits: strict_of(outcome),
            }),
            Err(error) => Err(error),
        }
    }

    #[track_caller]
    fn unwrapped_from_str_round(text: &str, rounding: Rounding) -> Result<Self, DecimalError> {
        const {
            assert!(
                F <= T::BITS,
                "precondition: the fraction F is at most the width"
            )
        };
        Self::strict_from_str_round(text, rounding)
    }
}

/// Returns the number of an outcome, or `Overflow` if it does not fit.
#[inline]
fn fitting<T: Word, const F: u32>(outcome: Outcome<T>) -> Result<Fixed<T, F>, DecimalError> {
    match checked_of(outcome) {
        Some(bits) => Ok(Fixed { bits }),
        None => Err(DecimalError::Overflow),
    }
}

/// Returns the same as `checked_from_str`. Fails with `Overflow` if F is greater than the width.
impl<T: Word, const F: u32> FromStr for Fixed<T, F> {
    type Err = DecimalError;

    fn from_str(text: &str) -> Result<Self, DecimalError> {
        if F > T::BITS {
            return Err(DecimalError::Overflow);
        }
        FromDecimal::checked_from_str(text)
    }
}
