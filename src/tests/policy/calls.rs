// Made by `make package` of crates/tests_policy/src/calls.rt, which is proved: changes go there.

//! The typed calls of each policy by the operation, through their bounds.

use crate::num::Number;
use crate::policy::{Checked, Overflowing, Wrapping};
use crate::strict::{Saturating, Strict, Unwrapped};
use crate::word::RawWord;

/// An operation on one or two numbers; an integer is the bits of the second.
#[derive(Clone, Copy, Debug)]
pub enum Call {
    Neg,
    Add,
    Sub,
    Dist,
    Mul,
    Sqrt,
    Recip,
    Div,
    DivEuclid,
    NextMultipleOf,
    Rem,
    RemEuclid,
    MulInt,
    DivInt,
    DivEuclidInt,
    RemEuclidInt,
    RemInt,
}

/// What the checked call answers.
pub fn checked<N: Checked>(call: Call, a: N, b: N) -> Option<N> {
    match call {
        Call::Neg => a.checked_neg(),
        Call::Add => a.checked_add(b),
        Call::Sub => a.checked_sub(b),
        Call::Dist => a.checked_dist(b),
        Call::Mul => a.checked_mul(b),
        Call::Sqrt => a.checked_sqrt(),
        Call::Recip => a.checked_recip(),
        _ => checked_quotient(call, a, b),
    }
}

fn checked_quotient<N: Checked>(call: Call, a: N, b: N) -> Option<N> {
    match call {
        Call::Div => a.checked_div(b),
        Call::DivEuclid => a.checked_div_euclid(b),
        Call::NextMultipleOf => a.checked_next_multiple_of(b),
        Call::Rem => a.checked_rem(b),
        Call::RemEuclid => a.checked_rem_euclid(b),
        _ => checked_by_integer(call, a, b.to_bits()),
    }
}

fn checked_by_integer<N: Checked>(call: Call, a: N, k: N::Bits) -> Option<N> {
    match call {
        Call::MulInt => a.checked_mul_int(k),
        Call::DivInt => a.checked_div_int(k),
        Call::DivEuclidInt => a.checked_div_euclid_int(k),
        Call::RemEuclidInt => a.checked_rem_euclid_int(k),
        Call::RemInt => a.checked_rem_int(k),
        _ => None,
    }
}

/// Whether the bits are those of 0.
fn is_zero_bits<T: RawWord>(bits: T) -> bool {
    bits.magnitude() == 0
}

/// Whether the number is 0.
fn is_zero<N: Number>(a: N) -> bool {
    is_zero_bits(a.to_bits())
}

/// Whether the number is at least 0.
fn is_from_zero<N: Number>(a: N) -> bool {
    !a.to_bits().is_below_zero()
}

/// The overflowing, the wrapping and the saturating answer, where the operation is defined and has them.
pub fn kept<N: Overflowing + Wrapping + Saturating>(
    call: Call,
    a: N,
    b: N,
) -> Option<((N, bool), N, N)> {
    match call {
        Call::Neg => Some((a.overflowing_neg(), a.wrapping_neg(), a.saturating_neg())),
        Call::Add => Some((a.overflowing_add(b), a.wrapping_add(b), a.saturating_add(b))),
        Call::Sub => Some((a.overflowing_sub(b), a.wrapping_sub(b), a.saturating_sub(b))),
        Call::Dist => Some((
            a.overflowing_dist(b),
            a.wrapping_dist(b),
            a.saturating_dist(b),
        )),
        Call::Mul => Some((a.overflowing_mul(b), a.wrapping_mul(b), a.saturating_mul(b))),
        Call::Sqrt => kept_root(a),
        Call::Recip => kept_reciprocal(a),
        _ => kept_quotient(call, a, b),
    }
}

fn kept_root<N: Overflowing + Wrapping + Saturating>(a: N) -> Option<((N, bool), N, N)> {
    if is_from_zero(a) {
        Some((a.overflowing_sqrt(), a.wrapping_sqrt(), a.saturating_sqrt()))
    } else {
        None
    }
}

fn kept_reciprocal<N: Overflowing + Wrapping + Saturating>(a: N) -> Option<((N, bool), N, N)> {
    if is_zero(a) {
        None
    } else {
        Some((
            a.overflowing_recip(),
            a.wrapping_recip(),
            a.saturating_recip(),
        ))
    }
}

fn kept_quotient<N: Overflowing + Wrapping + Saturating>(
    call: Call,
    a: N,
    b: N,
) -> Option<((N, bool), N, N)> {
    if is_zero(b) {
        return None;
    }
    match call {
        Call::Div => Some((a.overflowing_div(b), a.wrapping_div(b), a.saturating_div(b))),
        Call::DivEuclid => Some((
            a.overflowing_div_euclid(b),
            a.wrapping_div_euclid(b),
            a.saturating_div_euclid(b),
        )),
        Call::NextMultipleOf => Some((
            a.overflowing_next_multiple_of(b),
            a.wrapping_next_multiple_of(b),
            a.saturating_next_multiple_of(b),
        )),
        _ => kept_by_integer(call, a, b.to_bits()),
    }
}

fn kept_by_integer<N: Overflowing + Wrapping + Saturating>(
    call: Call,
    a: N,
    k: N::Bits,
) -> Option<((N, bool), N, N)> {
    if is_zero_bits(k) {
        return None;
    }
    match call {
        Call::MulInt => Some((
            a.overflowing_mul_int(k),
            a.wrapping_mul_int(k),
            a.saturating_mul_int(k),
        )),
        Call::DivInt => Some((
            a.overflowing_div_int(k),
            a.wrapping_div_int(k),
            a.saturating_div_int(k),
        )),
        Call::DivEuclidInt => Some((
            a.overflowing_div_euclid_int(k),
            a.wrapping_div_euclid_int(k),
            a.saturating_div_euclid_int(k),
        )),
        Call::RemEuclidInt => Some((
            a.overflowing_rem_euclid_int(k),
            a.wrapping_rem_euclid_int(k),
            a.saturating_rem_euclid_int(k),
        )),
        _ => None,
    }
}
