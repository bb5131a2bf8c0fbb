// Made by `make package` of crates/fixed_face/src/rounded.rt, which is proved: changes go there.

//! Operations with a named rounding. Operands and results are bits, in units of `2^-frac` unless a comment names
//! another unit.

use crate::face::answer::Code;
use crate::face::quotients::is_zero;
use crate::kernel::{
    add_prod_round_of, div_int_round_of, div_round_of, mul_add_round_of, mul_round_of,
    recip_round_of,
};
use crate::word::{Outcome, Rounding, Word};

/// Returns the rounding that has the number, or `None` if none has.
#[inline]
pub(crate) fn rounding_of(number: u32) -> Option<Rounding> {
    match number {
        0 => Some(Rounding::Down),
        1 => Some(Rounding::Zero),
        2 => Some(Rounding::Even),
        _ => None,
    }
}

/// Returns `a b / 2^frac`, rounded as named. Fails with `FractionPastWidth` if `frac` is greater than the width, and
/// with `NoRounding` if no rounding has the number `rounding`.
#[inline]
pub(crate) fn mul<T: Word>(a: T, b: T, frac: u32, rounding: u32) -> Result<Outcome<T>, Code> {
    if frac > T::BITS {
        return Err(Code::FractionPastWidth);
    }
    let Some(rounding) = rounding_of(rounding) else {
        return Err(Code::NoRounding);
    };
    Ok(mul_round_of(a, b, frac, rounding))
}

/// Returns `a mul / 2^mul_frac`, rounded as named, plus `add`. The factor `mul` has `mul_frac` fraction bits, and the
/// other operands and the result have one unit, which may be any. Fails with `FractionPastWidth` if `mul_frac` is
/// greater than the width, and with `NoRounding` if no rounding has the number `rounding`.
#[inline]
pub(crate) fn mul_add<T: Word>(
    a: T,
    mul: T,
    add: T,
    mul_frac: u32,
    rounding: u32,
) -> Result<Outcome<T>, Code> {
    if mul_frac > T::BITS {
        return Err(Code::FractionPastWidth);
    }
    let Some(rounding) = rounding_of(rounding) else {
        return Err(Code::NoRounding);
    };
    let outcome = mul_add_round_of(a, mul, add, mul_frac, rounding);
    Ok(outcome)
}

/// Returns `c` plus the product of `a` and `b`, which is rounded as named to the fraction bits of `c`. Each operand has
/// its own number of fraction bits, and the result has that of `c`. Fails with `FractionPastWidth` if one of these
/// numbers is greater than the width, and with `NoRounding` if no rounding has the number `rounding`.
#[inline]
pub(crate) fn add_prod<T: Word>(
    c: T,
    a: T,
    b: T,
    c_frac: u32,
    a_frac: u32,
    b_frac: u32,
    rounding: u32,
) -> Result<Outcome<T>, Code> {
    if c_frac > T::BITS || a_frac > T::BITS || b_frac > T::BITS {
        return Err(Code::FractionPastWidth);
    }
    let Some(rounding) = rounding_of(rounding) else {
        return Err(Code::NoRounding);
    };
    let outcome = add_prod_round_of(c, a, b, c_frac, a_frac, b_frac, rounding);
    Ok(outcome)
}

/// Returns `a 2^frac / b`, rounded as named. Fails with `FractionPastWidth` if `frac` is greater than the width, with
/// `NoRounding` if no rounding has the number `rounding`, and with `ZeroDivisor` if `b` is 0.
#[inline]
pub(crate) fn div<T: Word>(a: T, b: T, frac: u32, rounding: u32) -> Result<Outcome<T>, Code> {
    if frac > T::BITS {
        return Err(Code::FractionPastWidth);
    }
    let Some(rounding) = rounding_of(rounding) else {
        return Err(Code::NoRounding);
    };
    if is_zero(b) {
        return Err(Code::ZeroDivisor);
    }
    Ok(div_round_of(a, b, frac, rounding))
}

/// Returns `a / k`, rounded as named, for an integer `k`. Fails with `NoRounding` if no rounding has the number
/// `rounding`, and with `ZeroDivisor` if `k` is 0.
#[inline]
pub(crate) fn div_int<T: Word>(a: T, k: T, rounding: u32) -> Result<Outcome<T>, Code> {
    let Some(rounding) = rounding_of(rounding) else {
        return Err(Code::NoRounding);
    };
    if is_zero(k) {
        return Err(Code::ZeroDivisor);
    }
    Ok(div_int_round_of(a, k, rounding))
}

/// Returns `2^(2 frac) / a`, rounded as named. Fails with `FractionPastWidth` if `frac` is greater than the width, with
/// `NoRounding` if no rounding has the number `rounding`, and with `ZeroDivisor` if `a` is 0.
#[inline]
pub(crate) fn recip<T: Word>(a: T, frac: u32, rounding: u32) -> Result<Outcome<T>, Code> {
    if frac > T::BITS {
        return Err(Code::FractionPastWidth);
    }
    let Some(rounding) = rounding_of(rounding) else {
        return Err(Code::NoRounding);
    };
    if is_zero(a) {
        return Err(Code::ZeroDivisor);
    }
    Ok(recip_round_of(a, frac, rounding))
}
