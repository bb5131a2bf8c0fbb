// Made by `make package` of crates/fixed_machine/src/rows.rt, which is proved: changes go there.

//! The row of an operation on one word.

use crate::kernel::{
    abs_of, add_of, add_prod_of, add_prod_round_of, dist_of, div_euclid_int_of, div_euclid_of,
    div_int_of, div_int_round_of, div_of, div_round_of, mul_add_of, mul_add_round_of, mul_int_of,
    mul_of, mul_round_of, neg_of, next_multiple_of_of, next_power_of_two_of, recip_of,
    recip_round_of, rem_euclid_int_of, rem_euclid_of, rem_int_of, rem_of, signum_of, sqrt_of,
    sub_of,
};
use crate::machine::register::Register;
use crate::script::{Op, takes_rounding};
use crate::word::{Outcome, Rounding, Word};

/// An operand: its bits in a word, and its number of fraction bits.
#[derive(Clone, Copy)]
pub(crate) struct Operand<T> {
    pub bits: T,
    pub fraction: u32,
}

/// Returns the word of a register.
#[inline(always)]
pub(crate) fn word_held<T: Word>(register: Register) -> T {
    T::residue(register.below_zero, register.magnitude as u128)
}

/// The operands that decide whether the row of an operation is defined.
#[derive(Clone, Copy)]
pub(crate) enum Group {
    /// These operations take one number.
    OfOne,
    /// Sums, differences and products are defined for all operands.
    SumOrProduct,
    /// Quotients, remainders and multiples are undefined if the divisor is 0.
    ByDivisor,
}

/// Returns the operation's group.
#[inline(always)]
fn group_of(op: Op) -> Group {
    match op {
        Op::Neg | Op::Abs | Op::Signum | Op::NextPowerOfTwo | Op::Recip | Op::Sqrt => Group::OfOne,
        Op::Add | Op::Sub | Op::Dist | Op::Mul | Op::MulInt | Op::MulAdd | Op::AddProd => {
            Group::SumOrProduct
        }
        Op::Div
        | Op::DivInt
        | Op::DivEuclid
        | Op::DivEuclidInt
        | Op::Rem
        | Op::RemInt
        | Op::RemEuclid
        | Op::RemEuclidInt
        | Op::NextMultipleOf => Group::ByDivisor,
    }
}

/// Returns the outcome of an operation on one number, or `None` if its row is undefined.
#[inline(always)]
fn outcome_of_one<T: Word>(op: Op, x: T, frac: u32) -> Option<Outcome<T>> {
    match op {
        Op::Neg => Some(neg_of(x)),
        Op::Abs => Some(abs_of(x)),
        Op::Signum => Some(signum_of(x, frac)),
        Op::NextPowerOfTwo => Some(next_power_of_two_of(x)),
        Op::Recip => {
            if x == T::ZERO {
                None
            } else {
                Some(recip_of(x, frac))
            }
        }
        Op::Sqrt => {
            if x.is_below_zero() {
                None
            } else {
                Some(sqrt_of(x, frac))
            }
        }
        _ => None,
    }
}

/// Returns the outcome of a sum, a difference or a product. The third operand is read only where it is taken.
#[inline(always)]
fn outcome_of_sum_or_product<T: Word>(
    op: Op,
    a: Operand<T>,
    b: Operand<T>,
    c: Register,
) -> Option<Outcome<T>> {
    match op {
        Op::Add => Some(add_of(a.bits, b.bits)),
        Op::Sub => Some(sub_of(a.bits, b.bits)),
        Op::Dist => Some(dist_of(a.bits, b.bits)),
        Op::Mul => Some(mul_of(a.bits, b.bits, a.fraction)),
        Op::MulInt => Some(mul_int_of(a.bits, b.bits)),
        Op::MulAdd => Some(mul_add_of(a.bits, b.bits, word_held(c), b.fraction)),
        Op::AddProd => Some(add_prod_of(
            a.bits,
            b.bits,
            word_held(c),
            a.fraction,
            b.fraction,
            c.fraction,
        )),
        _ => None,
    }
}

/// Returns the outcome of a quotient, a remainder or a multiple. Precondition: the divisor is not 0.
#[inline(always)]
fn outcome_of_quotient<T: Word>(op: Op, x: T, y: T, frac: u32) -> Option<Outcome<T>> {
    match op {
        Op::Div => Some(div_of(x, y, frac)),
        Op::DivInt => Some(div_int_of(x, y)),
        Op::DivEuclid => Some(div_euclid_of(x, y, frac)),
        Op::DivEuclidInt => Some(div_euclid_int_of(x, y, frac)),
        Op::Rem => Some(rem_of(x, y)),
        Op::RemInt => Some(rem_int_of(x, y, frac)),
        Op::RemEuclid => Some(rem_euclid_of(x, y)),
        Op::RemEuclidInt => Some(rem_euclid_int_of(x, y, frac)),
        Op::NextMultipleOf => Some(next_multiple_of_of(x, y)),
        _ => None,
    }
}

/// Returns the outcome of a quotient, a remainder or a multiple, or `None` if the divisor is 0.
#[inline(always)]
fn outcome_by_divisor<T: Word>(op: Op, x: T, y: T, frac: u32) -> Option<Outcome<T>> {
    if y == T::ZERO {
        return None;
    }
    outcome_of_quotient(op, x, y, frac)
}

/// Returns the outcome of the operation's row, or `None` if the row is undefined.
#[inline(always)]
fn outcome_as<T: Word>(op: Op, a: Operand<T>, b: Operand<T>, c: Register) -> Option<Outcome<T>> {
    match group_of(op) {
        Group::OfOne => outcome_of_one(op, a.bits, a.fraction),
        Group::SumOrProduct => outcome_of_sum_or_product(op, a, b, c),
        Group::ByDivisor => outcome_by_divisor(op, a.bits, b.bits, a.fraction),
    }
}

/// Returns the quotient, rounded as named, or `None` if the divisor is 0.
fn rounded_quotient<T: Word>(a: Operand<T>, b: T, rounding: Rounding) -> Option<Outcome<T>> {
    if b == T::ZERO {
        return None;
    }
    Some(div_round_of(a.bits, b, a.fraction, rounding))
}

/// Returns the quotient by an integer, rounded as named, or `None` if the integer is 0.
fn rounded_quotient_by<T: Word>(a: T, k: T, rounding: Rounding) -> Option<Outcome<T>> {
    if k == T::ZERO {
        return None;
    }
    Some(div_int_round_of(a, k, rounding))
}

/// Returns the reciprocal, rounded as named, or `None` if the operand is 0.
fn rounded_reciprocal<T: Word>(a: Operand<T>, rounding: Rounding) -> Option<Outcome<T>> {
    if a.bits == T::ZERO {
        return None;
    }
    Some(recip_round_of(a.bits, a.fraction, rounding))
}

/// Returns the outcome of the operation's row, rounded as named, or `None` if the row is undefined.
#[inline(never)]
fn rounded_outcome_as<T: Word>(
    rounding: Rounding,
    op: Op,
    a: Operand<T>,
    b: Operand<T>,
    c: Register,
) -> Option<Outcome<T>> {
    match op {
        Op::Mul => Some(mul_round_of(a.bits, b.bits, a.fraction, rounding)),
        Op::MulAdd => Some(mul_add_round_of(
            a.bits,
            b.bits,
            word_held(c),
            b.fraction,
            rounding,
        )),
        Op::AddProd => Some(add_prod_round_of(
            a.bits,
            b.bits,
            word_held(c),
            a.fraction,
            b.fraction,
            c.fraction,
            rounding,
        )),
        Op::Div => rounded_quotient(a, b.bits, rounding),
        Op::DivInt => rounded_quotient_by(a.bits, b.bits, rounding),
        Op::Recip => rounded_reciprocal(a, rounding),
        _ => None,
    }
}

/// Returns the outcome of the operation's row, or `None` if the row is undefined. It is rounded as the line names, if
/// it names a rounding.
#[inline(always)]
pub(crate) fn outcome_by<T: Word>(
    rounding: Option<Rounding>,
    op: Op,
    a: Operand<T>,
    b: Operand<T>,
    c: Register,
) -> Option<Outcome<T>> {
    match rounding {
        Some(rounding) if takes_rounding(op) => rounded_outcome_as(rounding, op, a, b, c),
        _ => outcome_as(op, a, b, c),
    }
}
