// Made by `make package` of crates/fixed_machine/src/quick_step.rt, which is proved: changes go there.

//! A line that the fast path read, run on the registers. It returns an answer only if the line has no cause. For any
//! other line, the general step follows, which names the cause.

use crate::machine::answer::SignedAnswer;
use crate::machine::projected::answer_as;
use crate::machine::quick::{Applied, QuickLine};
use crate::machine::register::{OperandRegisters, Register, Signed};
use crate::machine::stepping::{is_offered, store};
use crate::script::{Arity, Op, arity_of};
use crate::text::WordName;
use crate::word::{Side, Word, outcome_of};

/// Returns whether the number of the line is a value of the word.
#[inline(always)]
fn is_number<T: Word>(line: QuickLine) -> bool {
    outcome_of::<T>(line.below_zero, u128::from(line.magnitude)).side == Side::Fits
}

/// Returns whether the operands have the numbers of fraction bits that the operation requires. If all registers have one
/// number of fraction bits, as `one_fraction` says, they have.
#[inline(always)]
fn is_matched(
    registers: &[Register],
    one_fraction: bool,
    line: QuickLine,
    applied: Applied,
) -> bool {
    if one_fraction {
        return true;
    }
    let fraction = registers[line.dest].fraction;
    registers[line.a].fraction == fraction
        && match applied.op {
            Op::AddProd => true,
            Op::MulAdd => registers[line.c].fraction == fraction,
            _ => registers[line.b].fraction == fraction,
        }
}

/// Returns the second operand: a register, or the number of the line, if it is a value of the word.
#[inline(always)]
fn second_of<T: Word>(registers: &[Register], line: QuickLine, op: Op) -> Option<Register> {
    match arity_of(op) {
        Arity::ByInteger => {
            if is_number::<T>(line) {
                Some(Register {
                    magnitude: line.magnitude,
                    fraction: 0,
                    below_zero: line.below_zero,
                })
            } else {
                None
            }
        }
        Arity::Unary | Arity::Binary | Arity::Ternary => Some(registers[line.b]),
    }
}

/// Returns the answer of a line that applies an operation. `None` decides nothing: the line may have a cause.
#[inline(always)]
fn answer_of_applied<T: Word>(
    word: WordName,
    registers: &[Register],
    one_fraction: bool,
    line: QuickLine,
    applied: Applied,
    number: u64,
) -> Option<SignedAnswer> {
    if !is_offered(word, applied.policy, applied.op) {
        return None;
    }
    let b = match second_of::<T>(registers, line, applied.op) {
        Some(second) => second,
        None => return None,
    };
    if !is_matched(registers, one_fraction, line, applied) {
        return None;
    }
    let taken = OperandRegisters {
        a: registers[line.a],
        b,
        c: registers[line.c],
    };
    let Ok(answer) = answer_as::<T>(applied.policy, applied.op, None, &taken, number) else {
        return None;
    };
    Some(answer)
}

/// Returns the answer of a line. `None` decides nothing: the line may have a cause.
#[inline(always)]
fn quick_answer<T: Word>(
    word: WordName,
    registers: &[Register],
    one_fraction: bool,
    line: QuickLine,
    number: u64,
) -> Option<SignedAnswer> {
    match line.applied {
        None => {
            if is_number::<T>(line) {
                Some(SignedAnswer::Bits(Signed {
                    below_zero: line.below_zero,
                    magnitude: line.magnitude,
                }))
            } else {
                None
            }
        }
        Some(applied) => {
            answer_of_applied::<T>(word, registers, one_fraction, line, applied, number)
        }
    }
}

/// Runs one line on the registers and returns its answer. If it returns `None`, the line may have a cause, and the
/// registers have not changed. The word is given by its name and by its type. If `one_fraction`, all registers have one
/// number of fraction bits.
#[inline(always)]
pub(crate) fn quick_step<T: Word>(
    word: WordName,
    registers: &mut [Register],
    one_fraction: bool,
    line: QuickLine,
    number: u64,
) -> Option<SignedAnswer> {
    let answer = match quick_answer::<T>(word, registers, one_fraction, line, number) {
        Some(answer) => answer,
        None => return None,
    };
    match answer {
        SignedAnswer::Absent => Some(answer),
        SignedAnswer::Bits(bits) => {
            store(registers, line.dest, bits);
            Some(answer)
        }
        SignedAnswer::Flagged(bits, _) => {
            store(registers, line.dest, bits);
            Some(answer)
        }
    }
}
