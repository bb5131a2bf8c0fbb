// Made by `make package` of crates/fixed_machine/src/stepping.rt, which is proved: changes go there.

//! Running one line of a script on the registers.

use crate::machine::answer::SignedAnswer;
use crate::machine::cause::Cause;
use crate::machine::projected::answer_in_word;
use crate::machine::register::{OperandRegisters, Register, Signed};
use crate::script::{Arity, Line, Literal, Op, Policy, arity_of, takes_rounding};
use crate::text::WordName;
use crate::word::Rounding;

/// Returns whether the operation may name that rounding.
fn may_round(op: Op, rounding: Option<Rounding>) -> bool {
    rounding.is_none() || takes_rounding(op)
}

/// Returns whether the operation takes the operands of the line, and its rounding.
fn is_shaped(line: &Line) -> bool {
    match line {
        Line::Set { .. } => true,
        Line::One { op, rounding, .. } => {
            arity_of(*op) == Arity::Unary && may_round(*op, *rounding)
        }
        Line::Two { op, rounding, .. } => {
            arity_of(*op) == Arity::Binary && may_round(*op, *rounding)
        }
        Line::Int { op, rounding, .. } => {
            arity_of(*op) == Arity::ByInteger && may_round(*op, *rounding)
        }
        Line::Three { op, rounding, .. } => {
            arity_of(*op) == Arity::Ternary && may_round(*op, *rounding)
        }
    }
}

/// Returns whether the operation is offered under that policy on the word.
#[inline(always)]
pub(crate) fn is_offered(word: WordName, policy: Policy, op: Op) -> bool {
    match op {
        Op::Abs | Op::Signum => word.is_signed(),
        Op::Rem | Op::RemInt | Op::RemEuclid => match policy {
            Policy::Checked | Policy::Strict => true,
            Policy::Saturating | Policy::Wrapping | Policy::Overflowing => false,
        },
        Op::NextPowerOfTwo => match policy {
            Policy::Checked | Policy::Wrapping | Policy::Strict => !word.is_signed(),
            Policy::Saturating | Policy::Overflowing => false,
        },
        _ => true,
    }
}

/// Returns whether the operation of the line is not offered under its policy on the word.
fn is_unoffered(word: WordName, line: &Line) -> bool {
    match line {
        Line::Set { .. } => false,
        Line::One { policy, op, .. }
        | Line::Two { policy, op, .. }
        | Line::Int { policy, op, .. }
        | Line::Three { policy, op, .. } => !is_offered(word, *policy, *op),
    }
}

/// Returns the greatest magnitude of the word's values below 0, or of the others.
fn greatest_magnitude(word: WordName, below_zero: bool) -> u64 {
    let width = word.width();
    match (word.is_signed(), below_zero) {
        (true, true) => 1 << (width - 1),
        (true, false) => (1 << (width - 1)) - 1,
        (false, true) => 0,
        (false, false) => u64::MAX >> (64 - width),
    }
}

/// Returns whether a literal is a value of the word.
fn is_literal(word: WordName, literal: Literal) -> bool {
    literal.magnitude <= u128::from(greatest_magnitude(word, literal.below_zero))
}

/// Returns whether a register was not declared.
fn is_missing(registers: &[Register], index: u128) -> bool {
    registers.len() as u128 <= index
}

fn is_out_of_range(word: WordName, registers: &[Register], line: &Line) -> bool {
    match line {
        Line::Set { dest, literal } => is_missing(registers, *dest) || !is_literal(word, *literal),
        Line::One { dest, a, .. } => is_missing(registers, *dest) || is_missing(registers, *a),
        Line::Two { dest, a, b, .. } => {
            is_missing(registers, *dest) || is_missing(registers, *a) || is_missing(registers, *b)
        }
        Line::Int {
            dest, a, literal, ..
        } => {
            is_missing(registers, *dest) || is_missing(registers, *a) || !is_literal(word, *literal)
        }
        Line::Three { dest, a, b, c, .. } => {
            is_missing(registers, *dest)
                || is_missing(registers, *a)
                || is_missing(registers, *b)
                || is_missing(registers, *c)
        }
    }
}

/// Returns the register with that number.
fn register_at(registers: &[Register], index: u128) -> Register {
    if index < registers.len() as u128 {
        registers[index as usize]
    } else {
        Register {
            magnitude: 0,
            fraction: 0,
            below_zero: false,
        }
    }
}

fn fraction_at(registers: &[Register], index: u128) -> u32 {
    register_at(registers, index).fraction
}

fn is_mismatched(registers: &[Register], line: &Line) -> bool {
    match line {
        Line::Set { .. } => false,
        Line::One { dest, a, .. } | Line::Int { dest, a, .. } => {
            fraction_at(registers, *a) != fraction_at(registers, *dest)
        }
        Line::Two { dest, a, b, .. } => {
            let fraction = fraction_at(registers, *dest);
            fraction_at(registers, *a) != fraction || fraction_at(registers, *b) != fraction
        }
        Line::Three { dest, op, a, c, .. } => {
            let fraction = fraction_at(registers, *dest);
            match op {
                Op::AddProd => fraction_at(registers, *a) != fraction,
                _ => {
                    fraction_at(registers, *a) != fraction || fraction_at(registers, *c) != fraction
                }
            }
        }
    }
}

/// Returns an integer as an operand.
fn integer_of(literal: Literal) -> Register {
    Register {
        magnitude: literal.magnitude as u64,
        fraction: 0,
        below_zero: literal.below_zero,
    }
}

/// Returns the operands of a line. Precondition: its literal is a value of some word.
#[inline(always)]
fn taken_by(registers: &[Register], line: &Line) -> OperandRegisters {
    let empty = Register {
        magnitude: 0,
        fraction: 0,
        below_zero: false,
    };
    match line {
        Line::Set { .. } => OperandRegisters {
            a: empty,
            b: empty,
            c: empty,
        },
        Line::One { a, .. } => OperandRegisters {
            a: register_at(registers, *a),
            b: empty,
            c: empty,
        },
        Line::Two { a, b, .. } => OperandRegisters {
            a: register_at(registers, *a),
            b: register_at(registers, *b),
            c: empty,
        },
        Line::Int { a, literal, .. } => OperandRegisters {
            a: register_at(registers, *a),
            b: integer_of(*literal),
            c: empty,
        },
        Line::Three { a, b, c, .. } => OperandRegisters {
            a: register_at(registers, *a),
            b: register_at(registers, *b),
            c: register_at(registers, *c),
        },
    }
}

/// Returns the number of a literal.
fn number_of(literal: Literal) -> Signed {
    Signed {
        below_zero: literal.below_zero,
        magnitude: literal.magnitude as u64,
    }
}

/// Returns the answer of a line with an operation, or its cause, if the first three tests found none.
#[inline(always)]
fn answer_of_operation(
    word: WordName,
    registers: &[Register],
    line: &Line,
    policy: Policy,
    op: Op,
    rounding: Option<Rounding>,
    number: u64,
) -> Result<SignedAnswer, Cause> {
    let taken = taken_by(registers, line);
    answer_in_word(word, policy, op, rounding, &taken, number)
}

/// Returns the answer of a line, or its cause, if the first three tests found none.
fn answer_past_tests(
    word: WordName,
    registers: &[Register],
    line: &Line,
    number: u64,
) -> Result<SignedAnswer, Cause> {
    match line {
        Line::Set { literal, .. } => Ok(SignedAnswer::Bits(number_of(*literal))),
        Line::One {
            policy,
            op,
            rounding,
            ..
        } => answer_of_operation(word, registers, line, *policy, *op, *rounding, number),
        Line::Two {
            policy,
            op,
            rounding,
            ..
        } => answer_of_operation(word, registers, line, *policy, *op, *rounding, number),
        Line::Int {
            policy,
            op,
            rounding,
            ..
        } => answer_of_operation(word, registers, line, *policy, *op, *rounding, number),
        Line::Three {
            policy,
            op,
            rounding,
            ..
        } => answer_of_operation(word, registers, line, *policy, *op, *rounding, number),
    }
}

/// Returns the answer of a line, or its cause.
fn answer_or_cause(
    word: WordName,
    registers: &[Register],
    line: &Line,
    number: u64,
) -> Result<SignedAnswer, Cause> {
    if is_unoffered(word, line) {
        return Err(Cause::Syntax(number));
    }
    if is_out_of_range(word, registers, line) {
        return Err(Cause::OutOfRange(number));
    }
    if is_mismatched(registers, line) {
        return Err(Cause::FractionMismatch(number));
    }
    answer_past_tests(word, registers, line, number)
}

fn destination(line: &Line) -> u128 {
    match line {
        Line::Set { dest, .. }
        | Line::One { dest, .. }
        | Line::Two { dest, .. }
        | Line::Int { dest, .. }
        | Line::Three { dest, .. } => *dest,
    }
}

/// Stores a number in a register.
#[inline(always)]
pub(crate) fn store(registers: &mut [Register], dest: usize, number: Signed) {
    let register = &mut registers[dest];
    register.below_zero = number.below_zero;
    register.magnitude = number.magnitude;
}

/// Runs one line on the registers. Returns its answer, or its cause, which leaves the registers unchanged.
pub(crate) fn step_registers(
    word: WordName,
    registers: &mut [Register],
    line: &Line,
    number: u64,
) -> Result<SignedAnswer, Cause> {
    if !is_shaped(line) {
        return Err(Cause::Syntax(number));
    }
    let answer = match answer_or_cause(word, registers, line, number) {
        Ok(answer) => answer,
        Err(cause) => return Err(cause),
    };
    match answer {
        SignedAnswer::Absent => Ok(answer),
        SignedAnswer::Bits(bits) => {
            store(registers, destination(line) as usize, bits);
            Ok(answer)
        }
        SignedAnswer::Flagged(bits, _) => {
            store(registers, destination(line) as usize, bits);
            Ok(answer)
        }
    }
}
