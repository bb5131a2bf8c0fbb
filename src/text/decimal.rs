// Made by `make package` of crates/fixed_text/src/decimal.rt, which is proved: changes go there.

//! Decimals of whole numbers, capped at `2^64`.

use crate::digits::{natural_of, sign_of};
use crate::word::{Outcome, Side, Word, outcome_of};

/// A whole number, by its sign and its magnitude. The magnitude is capped: `2^64` stands for each one of `2^64` or
/// more, which no word has as its value.
#[derive(Clone, Copy, Debug, PartialEq, Eq)]
pub struct Decimal {
    /// Whether the number is below 0.
    pub below_zero: bool,
    /// The magnitude, or `2^64` if it is larger.
    pub magnitude: u128,
}

/// Returns the whole number with this decimal: `0`, or digits without a leading 0, after a `-` if the number is below
/// 0. Returns `None` if no whole number has it.
///
/// # Examples
///
/// ```
/// use zugyelmas::text::{Decimal, read_decimal};
///
/// assert_eq!(read_decimal(b"-12"), Some(Decimal { below_zero: true, magnitude: 12 }));
/// assert_eq!(read_decimal(b"012"), None); // no 0 in front
/// assert_eq!(read_decimal(b"-0"), None);
/// ```
///
/// # Proved
///
/// ```text
/// ensures reading { IsReading piece.now result }
/// ensures held { result ≡ option_map decimal_of (whole_in piece.now) }
/// ```
///
/// Definitions: [`IsReading`], [`decimal_of`], [`whole_in`].
///
/// [`IsReading`]: crate::definitions::text_decimals
/// [`decimal_of`]: crate::definitions::text_decimals
/// [`whole_in`]: crate::definitions::text_numbers
#[must_use]
pub fn read_decimal(piece: &[u8]) -> Option<Decimal> {
    whole_of(piece)
}

/// Returns the word of this number, or `None` if it does not fit.
///
/// # Examples
///
/// ```
/// use zugyelmas::text::{Decimal, value_in};
///
/// assert_eq!(value_in(&Decimal { below_zero: true, magnitude: 128 }), Some(-128_i8));
/// assert_eq!(value_in::<i8>(&Decimal { below_zero: false, magnitude: 128 }), None);
/// ```
///
/// # Proved
///
/// ```text
/// ensures { option_map T.value result
///     ≡ checked T.SIGNED T.BITS (Some (decimal_value number.now)) }
/// ```
///
/// Definitions: [`checked`], [`decimal_value`].
///
/// [`checked`]: crate::definitions::word_policies
/// [`decimal_value`]: crate::definitions::text_decimals
#[must_use]
pub fn value_in<T: Word>(number: &Decimal) -> Option<T> {
    let outcome: Outcome<T> = outcome_of(number.below_zero, number.magnitude);
    match outcome.side {
        Side::Fits => Some(outcome.wrapped),
        Side::Above | Side::Below => None,
    }
}

/// Returns the whole number that the token writes, or `None` if it is not a decimal, such as `-0`.
fn whole_of(token: &[u8]) -> Option<Decimal> {
    let (below_zero, number) = sign_of(token);
    let magnitude = natural_of(number)?;
    if below_zero && magnitude == 0 {
        None
    } else {
        Some(Decimal {
            below_zero,
            magnitude,
        })
    }
}
