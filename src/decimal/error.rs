// Made by `make package` of crates/fixed_decimal/src/error.rt, which is proved: changes go there.

//! Why a text has no number in a format.

/// Why a text has no number in a format. The first three variants mean that it is not a decimal.
#[derive(Clone, Copy, Debug, PartialEq, Eq)]
pub enum DecimalError {
    /// After its sign, the text is empty or one point.
    NoDigits,
    /// After the sign, the byte at this index of the text is neither a digit nor a point, and no second point precedes
    /// it.
    InvalidDigit(usize),
    /// The text has a second point, and only digits and points before it.
    TooManyPoints,
    /// The number does not fit.
    Overflow,
    /// The number is not a multiple of the format's unit.
    Inexact,
}

impl core::fmt::Display for DecimalError {
    fn fmt(&self, f: &mut core::fmt::Formatter<'_>) -> core::fmt::Result {
        match self {
            Self::NoDigits { .. } => write!(f, "no digits"),
            Self::InvalidDigit { 0: field, .. } => write!(f, "invalid digit at byte {0}", field),
            Self::TooManyPoints { .. } => write!(f, "more than one point"),
            Self::Overflow { .. } => write!(f, "overflow"),
            Self::Inexact { .. } => write!(f, "not exactly a number of the format"),
        }
    }
}

impl core::error::Error for DecimalError {}
