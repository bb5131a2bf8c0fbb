// Made by `make package` of crates/fixed_face/src/block_calls.rt, which is proved: changes go there.

//! The calls over one block and over two, each with its operands. Blocks are arrays of the caller whose numbers have the
//! same number of fraction bits.
//!
//! Each word's calls pass their operands as an [`EachCall`] or a [`PairsCall`], so that one function has the operations
//! of all words.
//!
//! Such a call writes the result for each number of the block over that number, by the policy with the number `policy`,
//! and returns 0. It fails with `OutOfRange` only if the policy is `Checked` and a result does not fit: `place` is then
//! the index of the first such result, and the block is unchanged from there on. Otherwise `place` is unchanged, and
//! with another code the block is, too.

use crate::convert::Castable;
use crate::face::blocks;
use crate::word::Word;

/// An operation on each x of a block, with its other operands. Numbers are bits.
pub enum EachCall<T> {
    /// The number `-x`.
    Neg,
    /// The product `x k`, for an integer `k`.
    MulInt(T),
    /// The product `x by / 2^frac`, rounded down: `by` and `frac`.
    Scale(T, u32),
    /// The number `x / 2^from` in units of `2^-to`, rounded as named: `from`, `to`, and the number of the rounding.
    Convert(u32, u32, u32),
}

/// An operation on each x of a block and the y at its index in another one, with its other operands. Numbers are bits.
pub enum PairsCall<T> {
    /// The sum `x + y`.
    Add,
    /// The difference `x - y`.
    Sub,
    /// The product `x y / 2^frac`, rounded down.
    Mul(u32),
    /// The sum `x + y by / 2^frac`, with the product rounded down: `by` and `frac`.
    MulAdd(T, u32),
}

/// Writes the results of a call over the block. Fails with `FractionPastWidth`, `NoRounding`, `NoPolicy` or
/// `OutOfRange`, as the operation does.
#[inline(always)]
pub fn put_each<T: Castable + Word>(
    call: EachCall<T>,
    policy: u32,
    block: &mut [T],
    place: &mut usize,
) -> i32 {
    match call {
        EachCall::Neg => blocks::neg(block, policy, place),
        EachCall::MulInt(k) => blocks::mul_int(block, k, policy, place),
        EachCall::Scale(by, frac) => blocks::scale(block, by, frac, policy, place),
        EachCall::Convert(from, to, by) => blocks::convert(block, from, to, by, policy, place),
    }
}

/// Writes the results of a call over the first block. Fails with `FractionPastWidth`, `CountsDiffer`, `NoPolicy` or
/// `OutOfRange`, as the operation does.
#[inline(always)]
pub fn put_pairs<T: Word>(
    call: PairsCall<T>,
    policy: u32,
    block: &mut [T],
    others: &[T],
    place: &mut usize,
) -> i32 {
    match call {
        PairsCall::Add => blocks::add(block, others, policy, place),
        PairsCall::Sub => blocks::sub(block, others, policy, place),
        PairsCall::Mul(frac) => blocks::mul(block, others, frac, policy, place),
        PairsCall::MulAdd(by, frac) => blocks::mul_add(block, others, by, frac, policy, place),
    }
}
