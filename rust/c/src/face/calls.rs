// Made by `make package` of crates/fixed_face/src/calls.rt, which is proved: changes go there.

//! The calls whose result is an outcome, each with its operands.
//!
//! Each word's calls pass their operands as a [`Call`], so that one function has the operations of all words.

use crate::convert::Castable;
use crate::face::answer::{Code, side_of};
use crate::face::{conversions, products, quotients, remainders, roots, rounded};
use crate::kernel::{add_of, dist_of, mul_int_of, neg_of, sub_of};
use crate::word::{Outcome, Word};

/// A call with its operands: numbers, then numbers of fraction bits, then the number of a rounding. Numbers are bits,
/// in units of `2^-frac` unless a comment names another unit.
pub enum Call<T> {
    /// The number `-a`.
    Neg(T),
    /// The sum `a + b`.
    Add(T, T),
    /// The difference `a - b`.
    Sub(T, T),
    /// The magnitude of `a - b`.
    Dist(T, T),
    /// The product `a b / 2^frac`, rounded down.
    Mul(T, T, u32),
    /// The product `a k`, for an integer `k`.
    MulInt(T, T),
    /// The product `a mul / 2^mul_frac`, rounded down, plus `add`.
    MulAdd(T, T, T, u32),
    /// `c` plus the product of `a` and `b`, which is rounded down to the fraction bits of `c`. Each operand has its own
    /// number of fraction bits.
    AddProd(T, T, T, u32, u32, u32),
    /// The quotient `a 2^frac / b`, rounded toward zero.
    Div(T, T, u32),
    /// The quotient `a / k`, rounded toward zero, for an integer `k`.
    DivInt(T, T),
    /// The reciprocal `2^(2 frac) / a`, rounded toward zero.
    Recip(T, u32),
    /// The Euclidean quotient of `a` and `b`, which is an integer, times `2^frac`.
    DivEuclid(T, T, u32),
    /// The Euclidean quotient of `a` and `k 2^frac`, which is an integer, times `2^frac`.
    DivEuclidInt(T, T, u32),
    /// The remainder of `a` and `b`, whose quotient is rounded toward zero.
    Rem(T, T),
    /// The remainder of `a` and `k 2^frac`, whose quotient is rounded toward zero.
    RemInt(T, T, u32),
    /// The Euclidean remainder of `a` and `b`.
    RemEuclid(T, T),
    /// The Euclidean remainder of `a` and `k 2^frac`.
    RemEuclidInt(T, T, u32),
    /// The smallest multiple of `b` that is at least `a` if `b` is positive, and the largest one that is at most `a` if
    /// `b` is negative.
    NextMultipleOf(T, T),
    /// The root of `a 2^frac`, rounded down.
    Sqrt(T, u32),
    /// The product `a b / 2^frac`, rounded as named.
    MulRound(T, T, u32, u32),
    /// The product `a mul / 2^mul_frac`, rounded as named, plus `add`.
    MulAddRound(T, T, T, u32, u32),
    /// `c` plus the product of `a` and `b`, which is rounded as named to the fraction bits of `c`. Each operand has its
    /// own number of fraction bits.
    AddProdRound(T, T, T, u32, u32, u32, u32),
    /// The quotient `a 2^frac / b`, rounded as named.
    DivRound(T, T, u32, u32),
    /// The quotient `a / k`, rounded as named, for an integer `k`.
    DivIntRound(T, T, u32),
    /// The reciprocal `2^(2 frac) / a`, rounded as named.
    RecipRound(T, u32, u32),
    /// The number `number / 2^from` in units of `2^-to`, rounded as named, for a signed number.
    Convert(i64, u32, u32, u32),
    /// The number `number / 2^from` in units of `2^-to`, rounded as named, for an unsigned number.
    ConvertUnsigned(u64, u32, u32, u32),
    /// The number of a double in units of `2^-frac`, rounded as named.
    FromDouble(f64, u32, u32),
}

/// Returns the outcome that stands for the exact result of a call, or the code of why there is none.
#[inline(always)]
pub fn result_of<T: Castable + Word>(call: Call<T>) -> Result<Outcome<T>, Code> {
    match call {
        Call::Neg(a) => Ok(neg_of(a)),
        Call::Add(a, b) => Ok(add_of(a, b)),
        Call::Sub(a, b) => Ok(sub_of(a, b)),
        Call::Dist(a, b) => Ok(dist_of(a, b)),
        Call::Mul(a, b, frac) => products::mul(a, b, frac),
        Call::MulInt(a, k) => Ok(mul_int_of(a, k)),
        Call::MulAdd(a, mul, add, frac) => products::mul_add(a, mul, add, frac),
        Call::AddProd(c, a, b, f, g, h) => products::add_prod(c, a, b, f, g, h),
        Call::Div(a, b, frac) => quotients::div(a, b, frac),
        Call::DivInt(a, k) => quotients::div_int(a, k),
        Call::Recip(a, frac) => quotients::recip(a, frac),
        Call::DivEuclid(a, b, frac) => quotients::div_euclid(a, b, frac),
        Call::DivEuclidInt(a, k, frac) => quotients::div_euclid_int(a, k, frac),
        Call::Rem(a, b) => remainders::rem(a, b),
        Call::RemInt(a, k, frac) => remainders::rem_int(a, k, frac),
        Call::RemEuclid(a, b) => remainders::rem_euclid(a, b),
        Call::RemEuclidInt(a, k, frac) => remainders::rem_euclid_int(a, k, frac),
        Call::NextMultipleOf(a, b) => remainders::next_multiple_of(a, b),
        Call::Sqrt(a, frac) => roots::sqrt(a, frac),
        Call::MulRound(a, b, frac, by) => rounded::mul(a, b, frac, by),
        Call::MulAddRound(a, mul, add, frac, by) => rounded::mul_add(a, mul, add, frac, by),
        Call::AddProdRound(c, a, b, f, g, h, by) => rounded::add_prod(c, a, b, f, g, h, by),
        Call::DivRound(a, b, frac, by) => rounded::div(a, b, frac, by),
        Call::DivIntRound(a, k, by) => rounded::div_int(a, k, by),
        Call::RecipRound(a, frac, by) => rounded::recip(a, frac, by),
        Call::Convert(number, from, to, by) => conversions::convert(number, from, to, by),
        Call::ConvertUnsigned(number, from, to, by) => conversions::convert(number, from, to, by),
        Call::FromDouble(number, frac, by) => conversions::from_double(number, frac, by),
    }
}

/// Writes an outcome, its wrapped number and its side, and returns 0; or returns the number of the code, and leaves both
/// unchanged.
#[inline]
pub fn put<T: Word>(answer: Result<Outcome<T>, Code>, bits: &mut T, side: &mut i32) -> i32 {
    match answer {
        Ok(outcome) => {
            *bits = outcome.wrapped;
            *side = side_of(outcome.side);
            0
        }
        Err(code) => code.number(),
    }
}

/// Writes the outcome of a call, or returns the number of its code, as [`put`] does.
#[inline(always)]
pub fn put_result<T: Castable + Word>(call: Call<T>, bits: &mut T, side: &mut i32) -> i32 {
    put(result_of(call), bits, side)
}
