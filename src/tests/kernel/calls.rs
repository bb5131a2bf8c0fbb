// Made by `make package` of crates/tests_kernel/src/calls.rt, which is proved: changes go there.

//! The kernels by name. Each call is made only where its conditions hold.

use crate::kernel::*;
use crate::word::{Outcome, Word};

/// A kernel of one or two operands.
#[derive(Clone, Copy, Debug)]
pub enum Call {
    Neg,
    Add,
    Sub,
    Dist,
    Abs,
    Signum,
    Mul,
    MulInt,
    Sqrt,
    NextPowerOfTwo,
    Recip,
    Div,
    DivInt,
    DivEuclid,
    DivEuclidInt,
    Rem,
    RemInt,
    RemEuclid,
    RemEuclidInt,
    NextMultipleOf,
}

/// What the kernel answers; it reads as many operands as it has, and the fraction where it has one.
pub fn answer<T: Word>(call: Call, a: T, b: T, frac: u32) -> Option<Outcome<T>> {
    if frac > T::BITS {
        return None;
    }
    match call {
        Call::Neg => Some(neg_of(a)),
        Call::Add => Some(add_of(a, b)),
        Call::Sub => Some(sub_of(a, b)),
        Call::Dist => Some(dist_of(a, b)),
        Call::Mul => Some(mul_of(a, b, frac)),
        Call::MulInt => Some(mul_int_of(a, b)),
        Call::Abs | Call::Signum | Call::Sqrt | Call::NextPowerOfTwo => by_sign(call, a, frac),
        Call::Recip => reciprocal(a, frac),
        Call::Div | Call::DivInt | Call::DivEuclid | Call::DivEuclidInt => {
            quotient(call, a, b, frac)
        }
        _ => remainder(call, a, b, frac),
    }
}

fn by_sign<T: Word>(call: Call, a: T, frac: u32) -> Option<Outcome<T>> {
    if frac > T::BITS {
        return None;
    }
    match call {
        Call::Abs if T::SIGNED => Some(abs_of(a)),
        Call::Signum if T::SIGNED => Some(signum_of(a, frac)),
        Call::Sqrt if !a.is_below_zero() => Some(sqrt_of(a, frac)),
        Call::NextPowerOfTwo if !T::SIGNED => Some(next_power_of_two_of(a)),
        _ => None,
    }
}

fn reciprocal<T: Word>(a: T, frac: u32) -> Option<Outcome<T>> {
    if frac <= T::BITS && a.magnitude() != 0 {
        Some(recip_of(a, frac))
    } else {
        None
    }
}

fn quotient<T: Word>(call: Call, a: T, b: T, frac: u32) -> Option<Outcome<T>> {
    if frac > T::BITS || b.magnitude() == 0 {
        return None;
    }
    match call {
        Call::Div => Some(div_of(a, b, frac)),
        Call::DivInt => Some(div_int_of(a, b)),
        Call::DivEuclid => Some(div_euclid_of(a, b, frac)),
        Call::DivEuclidInt => Some(div_euclid_int_of(a, b, frac)),
        _ => None,
    }
}

fn remainder<T: Word>(call: Call, a: T, b: T, frac: u32) -> Option<Outcome<T>> {
    if frac > T::BITS || b.magnitude() == 0 {
        return None;
    }
    match call {
        Call::Rem => Some(rem_of(a, b)),
        Call::RemInt => Some(rem_int_of(a, b, frac)),
        Call::RemEuclid => Some(rem_euclid_of(a, b)),
        Call::RemEuclidInt => Some(rem_euclid_int_of(a, b, frac)),
        Call::NextMultipleOf => Some(next_multiple_of_of(a, b)),
        _ => None,
    }
}

/// `a mul + add`, where the factor has `frac` places.
pub fn multiply_add<T: Word>(a: T, mul: T, add: T, frac: u32) -> Option<Outcome<T>> {
    if frac <= T::BITS {
        Some(mul_add_of(a, mul, add, frac))
    } else {
        None
    }
}

/// `c + a b`, by the places of the three.
pub fn add_product<T: Word>(c: T, a: T, b: T, places: (u32, u32, u32)) -> Option<Outcome<T>> {
    let (c_frac, a_frac, b_frac) = places;
    if c_frac <= T::BITS && a_frac <= T::BITS && b_frac <= T::BITS {
        Some(add_prod_of(c, a, b, c_frac, a_frac, b_frac))
    } else {
        None
    }
}

/// `lhs rhs`, with its verdict.
pub fn product<T: Word>(lhs: T, rhs: T, frac: u32) -> Option<(T, bool)> {
    if frac <= T::BITS {
        Some(overflowing_mul(lhs, rhs, frac))
    } else {
        None
    }
}

/// `lhs / rhs`, with its verdict.
pub fn ratio<T: Word>(lhs: T, rhs: T, frac: u32) -> Option<(T, bool)> {
    if frac <= T::BITS && rhs.magnitude() != 0 {
        Some(overflowing_div(lhs, rhs, frac))
    } else {
        None
    }
}

/// The words nearest to `lhs rhs` and to `lhs / rhs`.
pub fn nearest<T: Word>(lhs: T, rhs: T, frac: u32) -> Option<(T, T)> {
    if frac <= T::BITS && rhs.magnitude() != 0 {
        Some((
            mul_nearest_of(lhs, rhs, frac),
            div_nearest_of(lhs, rhs, frac),
        ))
    } else {
        None
    }
}

/// `lhs mul + add`, with its verdict, at a length from minus the width to twice the width.
pub fn sum_of_product<T: Word>(lhs: T, mul: T, add: T, length: i32) -> Option<(T, bool)> {
    let width = T::BITS;
    let within = if length < 0 {
        length.unsigned_abs() <= width
    } else {
        length.unsigned_abs() / 2 + length.unsigned_abs() % 2 <= width
    };
    if within {
        Some(overflowing_mul_add(lhs, mul, add, length))
    } else {
        None
    }
}
