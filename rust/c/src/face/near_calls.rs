// Made by `make package` of crates/fixed_face/src/near_calls.rt, which is proved: changes go there.

//! The calls of elementary functions that write one number, each with its operands.
//!
//! Each word's calls pass their operands as a [`NearCall`], so that one function has the elementary functions of all
//! words.

use crate::face::elementary;
use crate::word::Word;

/// An elementary function with its operands: numbers, then the number of fraction bits. Numbers are bits, in units of
/// `2^-frac`.
pub enum NearCall<T> {
    /// The length of the pair `(a, b)`, in any unit.
    Hypot(T, T),
    /// One over the root of `a`.
    RecipSqrt(T, u32),
    /// The logarithm of `a` to the base 2.
    Log2(T, u32),
    /// The natural logarithm of `a`.
    Ln(T, u32),
    /// The logarithm of `a` to the base 10.
    Log10(T, u32),
    /// 2 to the power of `a`.
    Exp2(T, u32),
    /// e to the power of `a`.
    Exp(T, u32),
    /// The number `a` to the power of `b`.
    Pow(T, T, u32),
    /// The sine of `a` radians.
    Sin(T, u32),
    /// The cosine of `a` radians.
    Cos(T, u32),
    /// The sine of `a` turns.
    SinTurns(T, u32),
    /// The cosine of `a` turns.
    CosTurns(T, u32),
    /// The angle of the point `(x, y)` in radians, of which `y` is first.
    Atan2(T, T, u32),
    /// The angle of the point `(x, y)` in turns, of which `y` is first.
    Atan2Turns(T, T, u32),
}

/// Writes the number of a call, or returns the code of why there is none.
#[inline(always)]
pub fn near_of<T: Word>(call: NearCall<T>, number: &mut T) -> i32 {
    match call {
        NearCall::Hypot(a, b) => elementary::hypot(a, b, number),
        NearCall::RecipSqrt(a, frac) => elementary::recip_sqrt(a, frac, number),
        NearCall::Log2(a, frac) => elementary::log2(a, frac, number),
        NearCall::Ln(a, frac) => elementary::ln(a, frac, number),
        NearCall::Log10(a, frac) => elementary::log10(a, frac, number),
        NearCall::Exp2(a, frac) => elementary::exp2(a, frac, number),
        NearCall::Exp(a, frac) => elementary::exp(a, frac, number),
        NearCall::Pow(a, b, frac) => elementary::pow(a, b, frac, number),
        NearCall::Sin(a, frac) => elementary::sin(a, frac, number),
        NearCall::Cos(a, frac) => elementary::cos(a, frac, number),
        NearCall::SinTurns(a, frac) => elementary::sin_turns(a, frac, number),
        NearCall::CosTurns(a, frac) => elementary::cos_turns(a, frac, number),
        NearCall::Atan2(y, x, frac) => elementary::atan2(y, x, frac, number),
        NearCall::Atan2Turns(y, x, frac) => elementary::atan2_turns(y, x, frac, number),
    }
}
