// Made by `make package` of crates/fixed_script/src/names.rt, which is proved: changes go there.

//! The names of policies, roundings and operations in a script.

use crate::word::Rounding;

/// A policy. The names are `checked saturating wrapping overflowing strict`.
#[derive(Clone, Copy, Debug, PartialEq, Eq)]
pub enum Policy {
    Checked,
    Saturating,
    Wrapping,
    Overflowing,
    Strict,
}

/// An operation. Its name is that of the variant in snake case.
#[derive(Clone, Copy, Debug, PartialEq, Eq)]
pub enum Op {
    Neg,
    Add,
    Sub,
    Mul,
    Div,
    Recip,
    MulAdd,
    AddProd,
    MulInt,
    DivInt,
    DivEuclid,
    DivEuclidInt,
    RemEuclidInt,
    NextMultipleOf,
    Dist,
    Sqrt,
    Abs,
    Signum,
    Rem,
    RemInt,
    RemEuclid,
    NextPowerOfTwo,
}

/// Returns the rounding of an operation whose line names none, or `None` if the operation takes no rounding.
///
/// # Examples
///
/// ```
/// use zugyelmas::script::{Op, Rounding, default_rounding, takes_rounding};
///
/// assert_eq!(default_rounding(Op::Mul), Some(Rounding::Down));
/// assert_eq!(default_rounding(Op::Add), None);
/// ```
///
/// # Proved
///
/// ```text
/// ensures { result ≡ default_rounding op }
/// ```
///
/// Definitions: [`default_rounding`].
///
/// [`default_rounding`]: crate::definitions::script_names
#[must_use]
pub fn default_rounding(op: Op) -> Option<Rounding> {
    match op {
        Op::Mul | Op::MulAdd | Op::AddProd => Some(Rounding::Down),
        Op::Div | Op::Recip | Op::DivInt => Some(Rounding::Zero),
        _ => None,
    }
}

/// Returns the policy with this name, or `None` if there is none.
pub(crate) fn policy_of(token: &[u8]) -> Option<Policy> {
    if token == b"checked".as_slice() {
        Some(Policy::Checked)
    } else if token == b"saturating".as_slice() {
        Some(Policy::Saturating)
    } else if token == b"wrapping".as_slice() {
        Some(Policy::Wrapping)
    } else if token == b"overflowing".as_slice() {
        Some(Policy::Overflowing)
    } else if token == b"strict".as_slice() {
        Some(Policy::Strict)
    } else {
        None
    }
}

/// Returns the rounding with this name, or `None` if there is none.
pub(crate) fn rounding_of(token: &[u8]) -> Option<Rounding> {
    if token == b"down".as_slice() {
        Some(Rounding::Down)
    } else if token == b"zero".as_slice() {
        Some(Rounding::Zero)
    } else if token == b"even".as_slice() {
        Some(Rounding::Even)
    } else {
        None
    }
}

/// Returns whether the bytes are those of the name. All bytes are read, so that the compiler compares them at once.
#[inline(always)]
fn is_name(bytes: &[u8], name: &[u8]) -> bool {
    let mut same = true;
    for (at, byte) in name.iter().enumerate() {
        same &= bytes[at] == *byte;
    }
    same
}

/// Returns the bytes after the name, if it is at the front.
#[inline(always)]
fn after<'a>(bytes: &'a [u8], name: &[u8]) -> Option<&'a [u8]> {
    if bytes.len() >= name.len() && is_name(&bytes[..name.len()], name) {
        Some(&bytes[name.len()..])
    } else {
        None
    }
}

/// Returns the policy that is the first token, and the bytes after its space. `None` decides nothing: the token may be
/// a policy that no space follows.
#[inline(always)]
pub(crate) fn front_policy(bytes: &[u8]) -> Option<(Policy, &[u8])> {
    if let Some(rest) = after(bytes, b"checked ") {
        Some((Policy::Checked, rest))
    } else if let Some(rest) = after(bytes, b"wrapping ") {
        Some((Policy::Wrapping, rest))
    } else if let Some(rest) = after(bytes, b"overflowing ") {
        Some((Policy::Overflowing, rest))
    } else if let Some(rest) = after(bytes, b"saturating ") {
        Some((Policy::Saturating, rest))
    } else if let Some(rest) = after(bytes, b"strict ") {
        Some((Policy::Strict, rest))
    } else {
        None
    }
}

/// Returns the operation with this name, among sums, products, quotients and the like.
fn arithmetic_op_of(token: &[u8]) -> Option<Op> {
    if token == b"neg".as_slice() {
        Some(Op::Neg)
    } else if token == b"add".as_slice() {
        Some(Op::Add)
    } else if token == b"sub".as_slice() {
        Some(Op::Sub)
    } else if token == b"mul".as_slice() {
        Some(Op::Mul)
    } else if token == b"div".as_slice() {
        Some(Op::Div)
    } else if token == b"recip".as_slice() {
        Some(Op::Recip)
    } else if token == b"mul_add".as_slice() {
        Some(Op::MulAdd)
    } else if token == b"add_prod".as_slice() {
        Some(Op::AddProd)
    } else {
        None
    }
}

/// Returns the operation with this name, among those by an integer and those of whole quotients.
fn whole_op_of(token: &[u8]) -> Option<Op> {
    if token == b"mul_int".as_slice() {
        Some(Op::MulInt)
    } else if token == b"div_int".as_slice() {
        Some(Op::DivInt)
    } else if token == b"div_euclid".as_slice() {
        Some(Op::DivEuclid)
    } else if token == b"div_euclid_int".as_slice() {
        Some(Op::DivEuclidInt)
    } else if token == b"rem_euclid_int".as_slice() {
        Some(Op::RemEuclidInt)
    } else if token == b"next_multiple_of".as_slice() {
        Some(Op::NextMultipleOf)
    } else {
        None
    }
}

/// Returns the operation with this name, among distances, roots, signs, remainders and powers.
fn other_op_of(token: &[u8]) -> Option<Op> {
    if token == b"dist".as_slice() {
        Some(Op::Dist)
    } else if token == b"sqrt".as_slice() {
        Some(Op::Sqrt)
    } else if token == b"abs".as_slice() {
        Some(Op::Abs)
    } else if token == b"signum".as_slice() {
        Some(Op::Signum)
    } else if token == b"rem".as_slice() {
        Some(Op::Rem)
    } else if token == b"rem_int".as_slice() {
        Some(Op::RemInt)
    } else if token == b"rem_euclid".as_slice() {
        Some(Op::RemEuclid)
    } else if token == b"next_power_of_two".as_slice() {
        Some(Op::NextPowerOfTwo)
    } else {
        None
    }
}

/// Returns the operation with this name, or `None` if there is none.
pub(crate) fn op_of(token: &[u8]) -> Option<Op> {
    if let Some(op) = arithmetic_op_of(token) {
        Some(op)
    } else if let Some(op) = whole_op_of(token) {
        Some(op)
    } else {
        other_op_of(token)
    }
}

/// Returns the operation that is the first token, if its name has `length` bytes, and the bytes after its space.
#[inline(always)]
fn front_op_of(bytes: &[u8], length: usize) -> Option<(Op, &[u8])> {
    if bytes.len() <= length || bytes[length] != b' ' {
        return None;
    }
    let op = op_of(&bytes[..length])?;
    Some((op, &bytes[length + 1..]))
}

/// Returns the operation that is the first token, and the bytes after its space. `None` decides nothing: the name may
/// have another length than the most common ones.
#[inline(always)]
pub(crate) fn front_op(bytes: &[u8]) -> Option<(Op, &[u8])> {
    if let Some(found) = front_op_of(bytes, 3) {
        Some(found)
    } else if let Some(found) = front_op_of(bytes, 4) {
        Some(found)
    } else if let Some(found) = front_op_of(bytes, 7) {
        Some(found)
    } else {
        front_op_of(bytes, 8)
    }
}
