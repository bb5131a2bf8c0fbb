// Made by `make package` of crates/fixed_face/src/ends_calls.rt, which is proved: changes go there.

//! The calls over intervals, each with its operands.
//!
//! Each word's calls pass their operands as an [`EndsCall`], so that one function has the operations of all words.

use crate::face::intervals;
use crate::word::Word;

/// An operation on intervals with its operands: the low end and the high end of `a`, those of `b`, and the number of
/// fraction bits. Ends are bits, in units of `2^-frac`.
pub enum EndsCall<T> {
    /// The sums of a number in `a` and one in `b`.
    Add(T, T, T, T),
    /// The differences of a number in `a` and one in `b`.
    Sub(T, T, T, T),
    /// The products of a number in `a` and one in `b`, each over `2^frac`.
    Mul(T, T, T, T, u32),
    /// The quotients of a number in `a` by one in `b`, each times `2^frac`.
    Div(T, T, T, T, u32),
    /// The roots of `x 2^frac` for the numbers x in `a`.
    Sqrt(T, T, u32),
}

/// Writes the ends of the result of a call, or returns the code of why there is none, as [`intervals`] states.
#[inline(always)]
pub fn ends_of<T: Word>(call: EndsCall<T>, low: &mut T, high: &mut T) -> i32 {
    match call {
        EndsCall::Add(a, b, c, d) => intervals::add(a, b, c, d, low, high),
        EndsCall::Sub(a, b, c, d) => intervals::sub(a, b, c, d, low, high),
        EndsCall::Mul(a, b, c, d, frac) => intervals::mul(a, b, c, d, frac, low, high),
        EndsCall::Div(a, b, c, d, frac) => intervals::div(a, b, c, d, frac, low, high),
        EndsCall::Sqrt(a, b, frac) => intervals::sqrt(a, b, frac, low, high),
    }
}
