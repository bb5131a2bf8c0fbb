// Made by `make package` of crates/fixed_face/src/blocks.rt, which is proved: changes go there.

//! Operations on blocks: arrays of the caller whose numbers have the same number of fraction bits. Numbers are bits, in
//! units of `2^-frac`. [`block_calls`](crate::face::block_calls) states what each function leaves.

use crate::block::{
    Add, Convert, Each, Mul, MulAdd, MulInt, Neg, Pairs, Raise, Scale, Sub, checked_each,
    checked_pairs, saturating_each, saturating_pairs, wrapping_each, wrapping_pairs,
};
use crate::convert::Castable;
use crate::face::answer::Code;
use crate::face::rounded::rounding_of;
use crate::word::Word;

/// What a call over a block writes for an exact result that does not fit.
#[derive(Clone, Copy, PartialEq, Eq, Debug)]
pub enum BlockPolicy {
    /// The nearest number that fits.
    Saturating,
    /// The number that differs from it by a multiple of `2^n` units, where n is the width.
    Wrapping,
    /// Nothing: the block is unchanged from there on.
    Checked,
}

/// Returns the policy that has the number, or `None` if none has.
#[inline]
pub(crate) fn policy_of(number: u32) -> Option<BlockPolicy> {
    match number {
        0 => Some(BlockPolicy::Saturating),
        1 => Some(BlockPolicy::Wrapping),
        2 => Some(BlockPolicy::Checked),
        _ => None,
    }
}

/// Writes the results of an operation on each number of a block. Fails with `NoPolicy` if no policy has the number
/// `policy`, and with `OutOfRange` if the policy is `Checked` and a result does not fit. Precondition: the operation is
/// ready.
#[inline]
pub(crate) fn each<T: Word, O: Each<T>>(
    operation: &O,
    policy: u32,
    block: &mut [T],
    place: &mut usize,
) -> i32 {
    match policy_of(policy) {
        Some(BlockPolicy::Saturating) => {
            saturating_each(operation, block);
            0
        }
        Some(BlockPolicy::Wrapping) => {
            wrapping_each(operation, block);
            0
        }
        Some(BlockPolicy::Checked) => match checked_each(operation, block) {
            Some(at) => {
                *place = at;
                Code::OutOfRange.number()
            }
            None => 0,
        },
        None => Code::NoPolicy.number(),
    }
}

/// Writes the results of an operation on the numbers at the same index of two blocks over the first block. Fails with
/// `CountsDiffer` if the blocks have different lengths, with `NoPolicy` if no policy has the number `policy`, and with
/// `OutOfRange` if the policy is `Checked` and a result does not fit. Precondition: the operation is ready.
#[inline]
fn pairs<T: Word, O: Pairs<T>>(
    operation: &O,
    policy: u32,
    block: &mut [T],
    others: &[T],
    place: &mut usize,
) -> i32 {
    if block.len() != others.len() {
        return Code::CountsDiffer.number();
    }
    match policy_of(policy) {
        Some(BlockPolicy::Saturating) => {
            saturating_pairs(operation, block, others);
            0
        }
        Some(BlockPolicy::Wrapping) => {
            wrapping_pairs(operation, block, others);
            0
        }
        Some(BlockPolicy::Checked) => match checked_pairs(operation, block, others) {
            Some(at) => {
                *place = at;
                Code::OutOfRange.number()
            }
            None => 0,
        },
        None => Code::NoPolicy.number(),
    }
}

/// Writes `-x` over each x of the block. Fails with `NoPolicy` if no policy has the number `policy`, and with
/// `OutOfRange` if the policy is `Checked` and a result does not fit.
#[inline]
pub(crate) fn neg<T: Word>(block: &mut [T], policy: u32, place: &mut usize) -> i32 {
    each(&Neg, policy, block, place)
}

/// Writes `x k` over each x of the block, for an integer `k`. Fails with `NoPolicy` if no policy has the number
/// `policy`, and with `OutOfRange` if the policy is `Checked` and a result does not fit.
#[inline]
pub(crate) fn mul_int<T: Word>(block: &mut [T], k: T, policy: u32, place: &mut usize) -> i32 {
    each(&MulInt { k }, policy, block, place)
}

/// Writes `x by / 2^frac`, rounded down, over each x of the block. The factor `by` has `frac` fraction bits, and x and
/// the result have one unit, which may be any. Fails with `FractionPastWidth` if `frac` is greater than the width, with
/// `NoPolicy` if no policy has the number `policy`, and with `OutOfRange` if the policy is `Checked` and a result does
/// not fit.
#[inline]
pub(crate) fn scale<T: Word>(
    block: &mut [T],
    by: T,
    frac: u32,
    policy: u32,
    place: &mut usize,
) -> i32 {
    if frac > T::BITS {
        return Code::FractionPastWidth.number();
    }
    each(&Scale { by, frac }, policy, block, place)
}

/// Writes `x + y` over each x of the block, where y is the other number at its index. Fails with `CountsDiffer` if the
/// blocks have different lengths, with `NoPolicy` if no policy has the number `policy`, and with `OutOfRange` if the
/// policy is `Checked` and a result does not fit.
#[inline]
pub(crate) fn add<T: Word>(block: &mut [T], others: &[T], policy: u32, place: &mut usize) -> i32 {
    pairs(&Add, policy, block, others, place)
}

/// Writes `x - y` over each x of the block, where y is the other number at its index. Fails with `CountsDiffer` if the
/// blocks have different lengths, with `NoPolicy` if no policy has the number `policy`, and with `OutOfRange` if the
/// policy is `Checked` and a result does not fit.
#[inline]
pub(crate) fn sub<T: Word>(block: &mut [T], others: &[T], policy: u32, place: &mut usize) -> i32 {
    pairs(&Sub, policy, block, others, place)
}

/// Writes `x y / 2^frac`, rounded down, over each x of the block, where y is the other number at its index. Fails with
/// `FractionPastWidth` if `frac` is greater than the width, with `CountsDiffer` if the blocks have different lengths,
/// with `NoPolicy` if no policy has the number `policy`, and with `OutOfRange` if the policy is `Checked` and a result
/// does not fit.
#[inline]
pub(crate) fn mul<T: Word>(
    block: &mut [T],
    others: &[T],
    frac: u32,
    policy: u32,
    place: &mut usize,
) -> i32 {
    if frac > T::BITS {
        return Code::FractionPastWidth.number();
    }
    pairs(&Mul { frac }, policy, block, others, place)
}

/// Writes x plus `y by / 2^frac`, which is rounded down, over each x of the block, where y is the other number at its
/// index. The factor `by` has `frac` fraction bits, and x, y and the result have one unit, which may be any. Fails with
/// `FractionPastWidth` if `frac` is greater than the width, with `CountsDiffer` if the blocks have different lengths,
/// with `NoPolicy` if no policy has the number `policy`, and with `OutOfRange` if the policy is `Checked` and a result
/// does not fit.
#[inline]
pub(crate) fn mul_add<T: Word>(
    block: &mut [T],
    others: &[T],
    by: T,
    frac: u32,
    policy: u32,
    place: &mut usize,
) -> i32 {
    if frac > T::BITS {
        return Code::FractionPastWidth.number();
    }
    pairs(&MulAdd { by, frac }, policy, block, others, place)
}

/// Writes `x / 2^from` in units of `2^-to`, rounded as named, over each x of the block. Fails with `FractionPastWidth`
/// if `from` or `to` is greater than the width, with `NoRounding` if no rounding has the number `rounding`, with
/// `NoPolicy` if no policy has the number `policy`, and with `OutOfRange` if the policy is `Checked` and a result does
/// not fit.
#[inline]
pub(crate) fn convert<T: Castable + Word>(
    block: &mut [T],
    from: u32,
    to: u32,
    rounding: u32,
    policy: u32,
    place: &mut usize,
) -> i32 {
    if from > T::BITS || to > T::BITS {
        return Code::FractionPastWidth.number();
    }
    let Some(rounding) = rounding_of(rounding) else {
        return Code::NoRounding.number();
    };
    let convert = Convert { from, to, rounding };
    if from <= to {
        each(&Raise { convert }, policy, block, place)
    } else {
        each(&convert, policy, block, place)
    }
}
