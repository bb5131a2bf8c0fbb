// Made by `make package` of crates/tests_kernel/src/named.rt, which is proved: changes go there.

//! The kernels by the name of a word, on plain numbers: one function names the eight words, so
//! that no test pays for their laws.

use super::calls::{Call, answer, multiply_add};
use super::plain::low_bits;
use crate::word::{Side, Word, checked_of, outcome_of};

/// A word by its name.
#[derive(Clone, Copy, Debug)]
pub enum WordName {
    U8,
    U16,
    U32,
    U64,
    I8,
    I16,
    I32,
    I64,
}

/// The word of that value; nothing where the type does not hold it.
fn word_of<T: Word>(value: i128) -> Option<T> {
    checked_of(outcome_of(value < 0, value.unsigned_abs()))
}

fn value_of<T: Word>(word: T) -> i128 {
    let magnitude = word.magnitude() as i128;
    if word.is_below_zero() {
        -magnitude
    } else {
        magnitude
    }
}

fn answer_as<T: Word>(call: Call, a: i128, b: i128, frac: u32) -> Option<(i128, Side)> {
    let outcome = answer::<T>(call, word_of(a)?, word_of(b)?, frac)?;
    Some((value_of(outcome.wrapped), outcome.side))
}

fn multiply_add_as<T: Word>(a: i128, mul: i128, add: i128, frac: u32) -> Option<(i128, Side)> {
    let outcome = multiply_add::<T>(word_of(a)?, word_of(mul)?, word_of(add)?, frac)?;
    Some((value_of(outcome.wrapped), outcome.side))
}

/// A kernel with its operands and fraction, or a sum of a product, whose factor has that fraction.
#[derive(Clone, Copy)]
enum Question {
    Kernel(Call, i128, i128, u32),
    MultiplyAdd(i128, i128, i128, u32),
}

/// What is found at one type of words.
fn found_as<T: Word>(question: Question) -> Option<(i128, Side)> {
    match question {
        Question::Kernel(call, a, b, frac) => answer_as::<T>(call, a, b, frac),
        Question::MultiplyAdd(a, mul, add, frac) => multiply_add_as::<T>(a, mul, add, frac),
    }
}

/// What is found at words of that name.
fn found_in(word: WordName, question: Question) -> Option<(i128, Side)> {
    match word {
        WordName::U8 => found_as::<u8>(question),
        WordName::U16 => found_as::<u16>(question),
        WordName::U32 => found_as::<u32>(question),
        WordName::U64 => found_as::<u64>(question),
        WordName::I8 => found_as::<i8>(question),
        WordName::I16 => found_as::<i16>(question),
        WordName::I32 => found_as::<i32>(question),
        WordName::I64 => found_as::<i64>(question),
    }
}

/// What the kernel answers at words of that name and those values.
pub fn answer_in(word: WordName, call: Call, a: i128, b: i128, frac: u32) -> Option<(i128, Side)> {
    found_in(word, Question::Kernel(call, a, b, frac))
}

/// What the kernel answers of `a mul + add` at words of that name and those values; the factor has `frac` places.
pub fn multiply_add_in(
    word: WordName,
    a: i128,
    mul: i128,
    add: i128,
    frac: u32,
) -> Option<(i128, Side)> {
    found_in(word, Question::MultiplyAdd(a, mul, add, frac))
}

/// Whether what was found is what words of that name leave of the number, with its side.
pub fn stands_in(word: WordName, found: Option<(i128, Side)>, number: i128) -> bool {
    stands_at(word, found, number < 0, number.unsigned_abs())
}

/// The same of a number of that sign and magnitude.
fn stands_at(
    word: WordName,
    found: Option<(i128, Side)>,
    below_zero: bool,
    magnitude: u128,
) -> bool {
    match found {
        Some((wrapped, side)) => {
            let bits = low_bits(wrapped < 0, wrapped.unsigned_abs(), width(word));
            bits == low_bits(below_zero, magnitude, width(word))
                && side == side_at(word, below_zero, magnitude)
        }
        None => false,
    }
}

fn side_at(word: WordName, below_zero: bool, magnitude: u128) -> Side {
    if below_zero && magnitude > least(word) {
        Side::Below
    } else if !below_zero && magnitude > greatest(word) as u128 {
        Side::Above
    } else {
        Side::Fits
    }
}

/// Operands with what the kernel is to leave of its number, and the side where the number lies.
pub type Row = (Call, i128, i128, u32, i128, Side);

/// That the kernel answers as the row says, at words of that name.
fn check_row(word: WordName, row: Row) {
    let (call, a, b, frac, wrapped, side) = row;
    let found = answer_in(word, call, a, b, frac);
    let stands = found == Some((wrapped, side));
    assert!(
        stands,
        "{word:?}: {call:?} of {a} and {b} at {frac}: {found:?}"
    );
}

/// That the kernel answers as each row says, at words of that name.
pub fn check_rows(word: WordName, rows: &[Row]) {
    for &row in rows {
        check_row(word, row);
    }
}

/// That the kernel leaves what the word leaves of the number of that sign and magnitude, with its side.
pub fn check_magnitude(
    word: WordName,
    call: Call,
    operands: (i128, i128, u32),
    number: (bool, u128),
) {
    let (a, b, frac) = operands;
    let (below_zero, magnitude) = number;
    let found = answer_in(word, call, a, b, frac);
    let stands = stands_at(word, found, below_zero, magnitude);
    assert!(
        stands,
        "{word:?}: {call:?} of {a} and {b} at {frac}: {found:?}"
    );
}

/// The same of the kernel of one operand and a number that is at least 0.
pub fn check_number(word: WordName, call: Call, a: i128, frac: u32, number: u64) {
    check_magnitude(word, call, (a, 0, frac), (false, number as u128));
}

pub fn width(word: WordName) -> u32 {
    match word {
        WordName::U8 | WordName::I8 => 8,
        WordName::U16 | WordName::I16 => 16,
        WordName::U32 | WordName::I32 => 32,
        WordName::U64 | WordName::I64 => 64,
    }
}

pub fn greatest(word: WordName) -> u64 {
    match word {
        WordName::U8 => u8::MAX as u64,
        WordName::U16 => u16::MAX as u64,
        WordName::U32 => u32::MAX as u64,
        WordName::U64 => u64::MAX,
        WordName::I8 => 127,
        WordName::I16 => 32_767,
        WordName::I32 => 2_147_483_647,
        WordName::I64 => 9_223_372_036_854_775_807,
    }
}

/// The magnitude of the least number.
fn least(word: WordName) -> u128 {
    match word {
        WordName::U8 | WordName::U16 | WordName::U32 | WordName::U64 => 0,
        WordName::I8 => 128,
        WordName::I16 => 32_768,
        WordName::I32 => 2_147_483_648,
        WordName::I64 => 9_223_372_036_854_775_808,
    }
}
