// Made by `make package` of crates/tests_policy/src/rows.rt, which is proved: changes go there.

//! One table of rows for all policies, each with the word that is left and the side on which the number lies:
//! vectors of the Rust crate, and each call of two numbers or fewer at least once.

use super::calls::{Call, checked, kept};
use super::fitting::fitting;
use crate::num::{Fixed, FixedI8, FixedI32, FixedU8, Number};
use crate::policy::{Checked, Overflowing, Wrapping};
use crate::strict::{Saturating, Strict, Unwrapped};
use crate::word::Side::{Above, Below, Fits};
use crate::word::{RawWord, Side};

/// What the policies answer: checked; overflowing, wrapping and saturating; strict and unwrapped.
type Forms<N> = (Option<N>, Option<((N, bool), N, N)>, Option<(N, N)>);

/// What they answer to an operation.
fn answers<N>(call: Call, a: N, b: N) -> Forms<N>
where
    N: Checked + Overflowing + Wrapping + Saturating + Strict + Unwrapped,
{
    (checked(call, a, b), kept(call, a, b), fitting(call, a, b))
}

/// What they answer where this number is left of one on this side. Plain remainders are offered under checked,
/// strict and unwrapped alone.
fn forms<N: Number>(call: Call, left: N, side: Side) -> Forms<N> {
    let (checked, fitting, nearest) = match side {
        Fits => (Some(left), Some((left, left)), left),
        Above => (None, None, N::from_bits(<N::Bits as RawWord>::MAX)),
        Below => (None, None, N::from_bits(<N::Bits as RawWord>::MIN)),
    };
    let kept = match call {
        Call::Rem | Call::RemEuclid | Call::RemInt => None,
        _ => Some(((left, side != Fits), left, nearest)),
    };
    (checked, kept, fitting)
}

/// Asserts that all policies answer by the row of `a` and `b`: this number is left of one on this side.
fn stands<N>(call: Call, a: N, b: N, left: N, side: Side)
where
    N: Checked + Overflowing + Wrapping + Saturating + Strict + Unwrapped + PartialEq,
{
    let (x, y) = (a.to_bits().magnitude(), b.to_bits().magnitude());
    assert!(
        answers(call, a, b) == forms(call, left, side),
        "{call:?} of {x} and {y}, without their signs"
    );
}

/// Asserts that the operation is undefined: there is no answer.
fn is_undefined<N>(call: Call, a: N, b: N)
where
    N: Checked + Overflowing + Wrapping + Saturating + Strict + Unwrapped + PartialEq,
{
    assert!(answers(call, a, b) == (None, None, None), "{call:?}");
}

#[test]
fn signed_bytes() {
    for (call, a, b, left, side) in [
        (Call::Neg, -128_i8, 0, -128, Above),
        (Call::Neg, -127, 0, 127, Fits),
        (Call::Add, 127, 1, -128, Above),
        (Call::Add, -128, -1, 127, Below),
        (Call::Add, 100, 27, 127, Fits),
        (Call::Sub, 48, 8, 40, Fits),
        (Call::Dist, -128, 127, -1, Above),
        (Call::Dist, -48, 64, 112, Fits),
        (Call::Mul, 127, 64, -4, Above),
        (Call::Mul, 48, 8, 24, Fits),
        (Call::Mul, -3, 5, -1, Fits),
        (Call::MulInt, 48, 2, 96, Fits),
        (Call::MulInt, -16, 8, -128, Fits),
        (Call::MulInt, -100, 3, -44, Below),
        (Call::Sqrt, 32, 0, 22, Fits),
        (Call::Recip, -24, 0, -10, Fits),
        (Call::Div, -7, 3, -37, Fits),
        (Call::DivInt, -7, 2, -3, Fits),
        (Call::DivEuclid, 68, -8, -128, Fits),
        (Call::DivEuclid, 127, 4, -16, Above),
        (Call::DivEuclid, -128, 4, 0, Below),
        (Call::DivEuclid, -24, 20, -32, Fits),
        (Call::DivEuclidInt, -128, -1, -128, Above),
        (Call::DivEuclidInt, -24, -1, 32, Fits),
        (Call::NextMultipleOf, 127, 126, -4, Above),
        (Call::NextMultipleOf, -64, 24, -48, Fits),
        (Call::NextMultipleOf, -64, -24, -72, Fits),
        (Call::Rem, -23, 5, -3, Fits),
        (Call::Rem, 23, -5, 3, Fits),
        (Call::RemEuclid, -23, -5, 2, Fits),
        (Call::RemEuclid, 5, -3, 2, Fits),
        (Call::RemInt, -23, 1, -7, Fits),
        (Call::RemEuclidInt, -120, 20, -56, Above),
        (Call::RemEuclidInt, -23, 1, 9, Fits),
    ] {
        let (x, y) = (FixedI8::<4> { bits: a }, Fixed { bits: b });
        stands(call, x, y, Fixed { bits: left }, side);
    }
}

#[test]
fn one_integer_bit() {
    for (call, a, b, left, side) in [
        (Call::Recip, 32_i8, 0, 0, Above),
        (Call::Recip, -32, 0, 0, Below),
    ] {
        let (x, y) = (FixedI8::<7> { bits: a }, Fixed { bits: b });
        stands(call, x, y, Fixed { bits: left }, side);
    }
}

#[test]
fn no_integer_bits() {
    for (call, a, b, left, side) in [
        (Call::Div, -128_i8, -1, 0, Above),
        (Call::Sqrt, 127, 0, -76, Above),
        (Call::DivEuclid, 64, 100, 0, Fits),
        (Call::DivEuclidInt, -64, 2, 0, Below),
    ] {
        let (x, y) = (FixedI8::<8> { bits: a }, Fixed { bits: b });
        stands(call, x, y, Fixed { bits: left }, side);
    }
}

#[test]
fn unsigned_bytes() {
    for (call, a, b, left, side) in [
        (Call::Neg, 0_u8, 0, 0, Fits),
        (Call::Add, 255, 3, 2, Above),
        (Call::Add, 200, 55, 255, Fits),
        (Call::Sub, 7, 8, 255, Below),
        (Call::Dist, 50, 200, 150, Fits),
        (Call::Mul, 255, 64, 252, Above),
        (Call::Mul, 255, 17, 14, Above),
        (Call::Mul, 201, 20, 251, Fits),
        (Call::Recip, 7, 0, 36, Fits),
        (Call::Div, 100, 7, 228, Fits),
        (Call::Div, 100, 3, 21, Above),
        (Call::DivEuclid, 255, 4, 240, Above),
        (Call::DivEuclid, 250, 20, 192, Fits),
        (Call::Rem, 250, 20, 10, Fits),
        (Call::RemInt, 250, 3, 10, Fits),
    ] {
        let (x, y) = (FixedU8::<4> { bits: a }, Fixed { bits: b });
        stands(call, x, y, Fixed { bits: left }, side);
    }
}

#[test]
fn unsigned_fractions() {
    for (call, a, b, left, side) in [(Call::Sqrt, 255_u8, 0, 255, Fits)] {
        let (x, y) = (FixedU8::<8> { bits: a }, Fixed { bits: b });
        stands(call, x, y, Fixed { bits: left }, side);
    }
}

#[test]
fn thirty_two_bits() {
    for (call, a, b, left, side) in [(Call::RemInt, i32::MIN, -1, 0, Fits)] {
        let (x, y) = (FixedI32::<16> { bits: a }, Fixed { bits: b });
        stands(call, x, y, Fixed { bits: left }, side);
    }
}

#[test]
fn thirty_two_bits_one_integer_bit() {
    for (call, a, b, left, side) in [
        (Call::RemEuclidInt, -1073741824_i32, 3, 1073741824, Above),
        (Call::RemEuclidInt, -536870912, 3, 1610612736, Above),
    ] {
        let (x, y) = (FixedI32::<31> { bits: a }, Fixed { bits: b });
        stands(call, x, y, Fixed { bits: left }, side);
    }
}

#[test]
fn thirty_two_fraction_bits() {
    for (call, a, b, left, side) in [
        (Call::Div, i32::MIN, 1, 0, Below),
        (Call::Div, i32::MIN, i32::MIN, 0, Above),
        (Call::Div, -2147483647, i32::MIN, -2, Above),
        (Call::RemEuclidInt, -1610612736, 1, -1610612736, Above),
    ] {
        let (x, y) = (FixedI32::<32> { bits: a }, Fixed { bits: b });
        stands(call, x, y, Fixed { bits: left }, side);
    }
}

#[test]
fn undefined() {
    for (call, a, b) in [
        (Call::Sqrt, -16_i8, 0),
        (Call::Recip, 0, 0),
        (Call::Div, 1, 0),
        (Call::DivEuclid, 1, 0),
        (Call::NextMultipleOf, 1, 0),
        (Call::Rem, 5, 0),
        (Call::RemEuclid, 5, 0),
        (Call::DivInt, 1, 0),
        (Call::DivEuclidInt, 1, 0),
        (Call::RemEuclidInt, 1, 0),
        (Call::RemInt, 5, 0),
    ] {
        is_undefined(call, FixedI8::<4> { bits: a }, Fixed { bits: b });
    }
}
