// Made by `make package` of crates/fixed_face/src/answer.rt, which is proved: changes go there.

//! Codes and sides, and the numbers by which C knows them.

use crate::word::Side;

/// Why a call has no result.
#[derive(Clone, Copy, PartialEq, Eq, Debug)]
pub enum Code {
    /// A number of fraction bits is greater than the width of the word.
    FractionPastWidth,
    /// The divisor is 0, or is an interval that contains 0.
    ZeroDivisor,
    /// The operand of a square root, or its low end, is negative.
    NegativeRoot,
    /// The low end of an operand is greater than its high end.
    EndsExchanged,
    /// An end of an interval, the number of an elementary function, the value of a step, a partial sum, or a result of
    /// a block does not fit the word.
    OutOfRange,
    /// There is no coefficient, or no tap.
    NoElement,
    /// There are not as many past samples as taps, or one block is longer than the other.
    CountsDiffer,
    /// No rounding has the number.
    NoRounding,
    /// The double is a NaN or an infinity.
    NotFinite,
    /// After its sign, the text is empty or one point.
    NoDigits,
    /// After its sign, the text has a byte that is neither a digit nor a point, and no second point precedes it.
    InvalidDigit,
    /// After its sign, the text has a second point, and only digits and points before it.
    TooManyPoints,
    /// More than 64 digits after the point are requested.
    TooManyPlaces,
    /// The text and the byte 0 after it do not fit into the buffer.
    NoRoom,
    /// No policy of blocks has the number.
    NoPolicy,
    /// The operand of a reciprocal root or a logarithm, or the base of a power, is not positive.
    NotPositive,
    /// Both coordinates of a point are 0: it has no angle.
    NoAngle,
}

impl Code {
    /// Returns the number by which C knows the code.
    #[inline]
    pub fn number(self) -> i32 {
        match self {
            Code::FractionPastWidth => 1,
            Code::ZeroDivisor => 2,
            Code::NegativeRoot => 3,
            Code::EndsExchanged => 4,
            Code::OutOfRange => 5,
            Code::NoElement => 6,
            Code::CountsDiffer => 7,
            Code::NoRounding => 8,
            Code::NotFinite => 9,
            Code::NoDigits => 10,
            Code::InvalidDigit => 11,
            Code::TooManyPoints => 12,
            Code::TooManyPlaces => 13,
            Code::NoRoom => 14,
            Code::NoPolicy => 15,
            Code::NotPositive => 16,
            Code::NoAngle => 17,
        }
    }
}

/// Returns the number by which C knows the side: 0 if the exact result fits, 1 if it is above the range, and -1 if it
/// is below.
#[inline]
pub fn side_of(side: Side) -> i32 {
    if side == Side::Fits {
        0
    } else if side == Side::Above {
        1
    } else {
        -1
    }
}
