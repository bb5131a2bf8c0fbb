// Made by `make package` of crates/fixed_machine/src/projected.rt, which is proved: changes go there.

//! The result of a policy for a row.

use crate::machine::answer::SignedAnswer;
use crate::machine::cause::Cause;
use crate::machine::register::{OperandRegisters, Register, Signed};
use crate::machine::rows::{Operand, outcome_by, word_held};
use crate::script::{Op, Policy};
use crate::text::WordName;
use crate::word::{
    Outcome, RawWord, Rounding, Side, Word, checked_of, overflowing_of, saturating_of, strict_of,
    wrapping_of,
};

/// Returns the number of a word.
#[inline(always)]
fn number_of<T: RawWord>(word: T) -> Signed {
    Signed {
        below_zero: word.is_below_zero(),
        magnitude: word.magnitude(),
    }
}

/// Returns the operand that a register holds.
#[inline(always)]
fn operand_of<T: Word>(register: Register) -> Operand<T> {
    Operand {
        bits: word_held(register),
        fraction: register.fraction,
    }
}

/// Returns the policy's answer for the number of an outcome, or its cause.
#[inline(always)]
fn answered<T: Word>(
    policy: Policy,
    outcome: Outcome<T>,
    number: u64,
) -> Result<SignedAnswer, Cause> {
    match policy {
        Policy::Checked => match checked_of(outcome) {
            Some(word) => Ok(SignedAnswer::Bits(number_of(word))),
            None => Ok(SignedAnswer::Absent),
        },
        Policy::Saturating => Ok(SignedAnswer::Bits(number_of(saturating_of(outcome)))),
        Policy::Wrapping => Ok(SignedAnswer::Bits(number_of(wrapping_of(outcome)))),
        Policy::Overflowing => {
            let (word, verdict) = overflowing_of(outcome);
            Ok(SignedAnswer::Flagged(number_of(word), verdict))
        }
        Policy::Strict => match outcome.side {
            Side::Fits => Ok(SignedAnswer::Bits(number_of(strict_of(outcome)))),
            Side::Above | Side::Below => Err(Cause::Overflow(number)),
        },
    }
}

/// Returns the policy's answer for a row that is undefined, or its cause.
#[inline(always)]
fn unanswered(policy: Policy, op: Op, number: u64) -> Result<SignedAnswer, Cause> {
    if policy == Policy::Checked {
        Ok(SignedAnswer::Absent)
    } else if op == Op::Sqrt {
        Err(Cause::NegativeRoot(number))
    } else {
        Err(Cause::ZeroDivisor(number))
    }
}

/// Returns the answer of an operation on registers of a word, or its cause.
#[inline(always)]
pub(crate) fn answer_as<T: Word>(
    policy: Policy,
    op: Op,
    rounding: Option<Rounding>,
    taken: &OperandRegisters,
    number: u64,
) -> Result<SignedAnswer, Cause> {
    let a = operand_of::<T>(taken.a);
    let b = operand_of::<T>(taken.b);
    match outcome_by(rounding, op, a, b, taken.c) {
        None => unanswered(policy, op, number),
        Some(outcome) => answered(policy, outcome, number),
    }
}

/// Does the same on the word with this name.
#[inline(never)]
pub(crate) fn answer_in_word(
    word: WordName,
    policy: Policy,
    op: Op,
    rounding: Option<Rounding>,
    taken: &OperandRegisters,
    number: u64,
) -> Result<SignedAnswer, Cause> {
    match word {
        WordName::I8 => answer_as::<i8>(policy, op, rounding, taken, number),
        WordName::I16 => answer_as::<i16>(policy, op, rounding, taken, number),
        WordName::I32 => answer_as::<i32>(policy, op, rounding, taken, number),
        WordName::I64 => answer_as::<i64>(policy, op, rounding, taken, number),
        WordName::U8 => answer_as::<u8>(policy, op, rounding, taken, number),
        WordName::U16 => answer_as::<u16>(policy, op, rounding, taken, number),
        WordName::U32 => answer_as::<u32>(policy, op, rounding, taken, number),
        WordName::U64 => answer_as::<u64>(policy, op, rounding, taken, number),
    }
}
