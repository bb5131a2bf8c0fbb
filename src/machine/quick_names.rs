// Made by `make package` of crates/fixed_machine/src/quick_names.rt, which is proved: changes go there.

//! The fast path that reads the names of policies and operations: it compares four or eight bytes at once.

use crate::script::{Op, Policy};

/// Returns whether four bytes of a text, from `from` on, are at the same place after `at`. They are compared as one
/// number.
#[inline]
fn is_four(bytes: &[u8], at: usize, text: &[u8], from: usize) -> bool {
    let mut found = [0; 4];
    let mut wanted = [0; 4];
    found.copy_from_slice(&bytes[at + from..at + from + 4]);
    wanted.copy_from_slice(&text[from..from + 4]);
    u32::from_le_bytes(found) == u32::from_le_bytes(wanted)
}

/// Does the same for eight bytes.
#[inline]
fn is_eight(bytes: &[u8], at: usize, text: &[u8], from: usize) -> bool {
    let mut found = [0; 8];
    let mut wanted = [0; 8];
    found.copy_from_slice(&bytes[at + from..at + from + 8]);
    wanted.copy_from_slice(&text[from..from + 8]);
    u64::from_le_bytes(found) == u64::from_le_bytes(wanted)
}

/// Returns whether a text of 4 to 24 bytes is at a place. Four or eight bytes are compared at once.
#[inline]
pub(crate) fn is_text<const N: usize>(bytes: &[u8], at: usize, text: &[u8; N]) -> bool {
    if N < 8 {
        is_four(bytes, at, text, 0) && is_four(bytes, at, text, N - 4)
    } else if N <= 16 {
        is_eight(bytes, at, text, 0) && is_eight(bytes, at, text, N - 8)
    } else {
        is_eight(bytes, at, text, 0)
            && is_eight(bytes, at, text, 8)
            && is_eight(bytes, at, text, N - 8)
    }
}

/// Returns the policy at a place, and where the bytes after its space begin.
#[inline(always)]
pub(crate) fn policy_at(bytes: &[u8], at: usize) -> Option<(Policy, usize)> {
    if is_text(bytes, at, b"checked ") {
        Some((Policy::Checked, at + 8))
    } else if is_text(bytes, at, b"wrapping ") {
        Some((Policy::Wrapping, at + 9))
    } else if is_text(bytes, at, b"overflowing ") {
        Some((Policy::Overflowing, at + 12))
    } else if is_text(bytes, at, b"saturating ") {
        Some((Policy::Saturating, at + 11))
    } else if is_text(bytes, at, b"strict ") {
        Some((Policy::Strict, at + 7))
    } else {
        None
    }
}

/// Returns the operation at a place, if its name has three letters, and where the bytes after its space begin.
#[inline(always)]
fn short_op_at(bytes: &[u8], at: usize) -> Option<(Op, usize)> {
    if is_text(bytes, at, b"neg ") {
        Some((Op::Neg, at + 4))
    } else if is_text(bytes, at, b"add ") {
        Some((Op::Add, at + 4))
    } else if is_text(bytes, at, b"sub ") {
        Some((Op::Sub, at + 4))
    } else if is_text(bytes, at, b"mul ") {
        Some((Op::Mul, at + 4))
    } else if is_text(bytes, at, b"div ") {
        Some((Op::Div, at + 4))
    } else if is_text(bytes, at, b"abs ") {
        Some((Op::Abs, at + 4))
    } else if is_text(bytes, at, b"rem ") {
        Some((Op::Rem, at + 4))
    } else {
        None
    }
}

/// Returns the operation at a place, if its name has more than three letters, and where the bytes after its space
/// begin.
#[inline(always)]
fn long_op_at(bytes: &[u8], at: usize) -> Option<(Op, usize)> {
    if is_text(bytes, at, b"sqrt ") {
        Some((Op::Sqrt, at + 5))
    } else if is_text(bytes, at, b"dist ") {
        Some((Op::Dist, at + 5))
    } else if is_text(bytes, at, b"recip ") {
        Some((Op::Recip, at + 6))
    } else if is_text(bytes, at, b"signum ") {
        Some((Op::Signum, at + 7))
    } else if is_text(bytes, at, b"mul_add ") {
        Some((Op::MulAdd, at + 8))
    } else if is_text(bytes, at, b"add_prod ") {
        Some((Op::AddProd, at + 9))
    } else if is_text(bytes, at, b"mul_int ") {
        Some((Op::MulInt, at + 8))
    } else if is_text(bytes, at, b"div_int ") {
        Some((Op::DivInt, at + 8))
    } else if is_text(bytes, at, b"rem_int ") {
        Some((Op::RemInt, at + 8))
    } else if is_text(bytes, at, b"div_euclid ") {
        Some((Op::DivEuclid, at + 11))
    } else if is_text(bytes, at, b"rem_euclid ") {
        Some((Op::RemEuclid, at + 11))
    } else if is_text(bytes, at, b"div_euclid_int ") {
        Some((Op::DivEuclidInt, at + 15))
    } else if is_text(bytes, at, b"rem_euclid_int ") {
        Some((Op::RemEuclidInt, at + 15))
    } else if is_text(bytes, at, b"next_multiple_of ") {
        Some((Op::NextMultipleOf, at + 17))
    } else if is_text(bytes, at, b"next_power_of_two ") {
        Some((Op::NextPowerOfTwo, at + 18))
    } else {
        None
    }
}

/// Returns the operation at a place, and where the bytes after its space begin.
#[inline(always)]
pub(crate) fn op_at(bytes: &[u8], at: usize) -> Option<(Op, usize)> {
    if bytes[at + 3] == b' ' {
        short_op_at(bytes, at)
    } else {
        long_op_at(bytes, at)
    }
}
