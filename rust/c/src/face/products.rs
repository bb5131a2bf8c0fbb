// Made by `make package` of crates/fixed_face/src/products.rt, which is proved: changes go there.

//! Products, rounded down. Operands and results are bits, in units of `2^-frac` unless a comment names another unit.

use crate::face::answer::Code;
use crate::kernel::{add_prod_of, mul_add_of, mul_of};
use crate::word::{Outcome, Word};

/// Returns `a b / 2^frac`, rounded down. Fails with `FractionPastWidth` if `frac` is greater than the width.
#[inline]
pub(crate) fn mul<T: Word>(a: T, b: T, frac: u32) -> Result<Outcome<T>, Code> {
    if frac > T::BITS {
        return Err(Code::FractionPastWidth);
    }
    Ok(mul_of(a, b, frac))
}

/// Returns `a mul / 2^mul_frac`, rounded down, plus `add`. The factor `mul` has `mul_frac` fraction bits, and the other
/// operands and the result have one unit, which may be any. Fails with `FractionPastWidth` if `mul_frac` is greater
/// than the width.
#[inline]
pub(crate) fn mul_add<T: Word>(a: T, mul: T, add: T, mul_frac: u32) -> Result<Outcome<T>, Code> {
    if mul_frac > T::BITS {
        return Err(Code::FractionPastWidth);
    }
    Ok(mul_add_of(a, mul, add, mul_frac))
}

/// Returns `c` plus the product of `a` and `b`, which is rounded down to the fraction bits of `c`. Each operand has its
/// own number of fraction bits, and the result has that of `c`. Fails with `FractionPastWidth` if one of these numbers
/// is greater than the width.
#[inline]
pub(crate) fn add_prod<T: Word>(
    c: T,
    a: T,
    b: T,
    c_frac: u32,
    a_frac: u32,
    b_frac: u32,
) -> Result<Outcome<T>, Code> {
    if c_frac > T::BITS || a_frac > T::BITS || b_frac > T::BITS {
        return Err(Code::FractionPastWidth);
    }
    let outcome = sum_of_product(c, a, b, c_frac, a_frac, b_frac);
    Ok(outcome)
}

/// Returns the outcome of `c` plus the product of `a` and `b`, which is rounded down to the fraction bits of `c`. A
/// product that is shifted right by at most the width, as most are, takes one shift. Precondition: each number of
/// fraction bits is at most the width.
#[inline]
fn sum_of_product<T: Word>(c: T, a: T, b: T, c_frac: u32, a_frac: u32, b_frac: u32) -> Outcome<T> {
    let both = a_frac + b_frac;
    if c_frac <= both && both - c_frac <= T::BITS {
        mul_add_of(a, b, c, both - c_frac)
    } else {
        add_prod_of(c, a, b, c_frac, a_frac, b_frac)
    }
}
