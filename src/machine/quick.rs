// Made by `make package` of crates/fixed_machine/src/quick.rt, which is proved: changes go there.

//! The fast path that reads a line of the common form, in one pass over the bytes from its start on. It returns a line
//! only if registers have one or two digits and numbers at most nineteen, and if at least as many bytes remain as the
//! longest such line may have. The general path reads any other line.

use crate::machine::quick_names::{is_text, op_at, policy_at};
use crate::script::{Arity, Op, Policy, arity_of};

/// The length of the longest line that the fast path reads, including its newline. At least so many bytes must remain.
pub(crate) const LONGEST: usize = 64;

/// A policy and an operation.
#[derive(Clone, Copy)]
pub(crate) struct Applied {
    pub policy: Policy,
    pub op: Op,
}

/// A line that the fast path read. Registers that its operation does not take are its destination again, and a number
/// that it does not take is 0.
#[derive(Clone, Copy)]
pub(crate) struct QuickLine {
    /// This is `None` if the line sets a register.
    pub applied: Option<Applied>,
    pub dest: usize,
    pub a: usize,
    pub b: usize,
    pub c: usize,
    pub below_zero: bool,
    pub magnitude: u64,
}

/// Returns the register of two digits at a place, if it is one of the first `count` and the separator follows it, and
/// where the bytes after that begin.
#[inline(always)]
fn long_register_before(
    bytes: &[u8],
    at: usize,
    separator: u8,
    count: u8,
) -> Option<(usize, usize)> {
    let (tens, ones) = (bytes[at + 1], bytes[at + 2]);
    if bytes[at] != b'r' || bytes[at + 3] != separator {
        return None;
    }
    if !tens.is_ascii_digit() || tens == b'0' || !ones.is_ascii_digit() {
        return None;
    }
    let number = (tens - b'0') * 10 + (ones - b'0');
    if number < count {
        Some((usize::from(number), at + 4))
    } else {
        None
    }
}

/// Returns the register of one or two digits at a place, if it is one of the first `count` and the separator follows
/// it, and where the bytes after that begin.
#[inline(always)]
fn register_before(bytes: &[u8], at: usize, separator: u8, count: u8) -> Option<(usize, usize)> {
    let mut found = [0; 4];
    found.copy_from_slice(&bytes[at..at + 4]);
    let least = u32::from_le_bytes([b'r', b'0', separator, 0]);
    let above = u32::from_le_bytes(found).wrapping_sub(least) % (1 << 24);
    let number = above / 256;
    if above % 256 == 0 && number < u32::from(count.min(10)) {
        Some((number as usize, at + 3))
    } else {
        long_register_before(bytes, at, separator, count)
    }
}

/// Returns the number that the digits at a place write, at most nineteen, and how many they are.
#[inline(always)]
fn digits_at(bytes: &[u8], at: usize) -> (u64, usize) {
    // The slice has that length, so that no index in the loop is tested.
    let digits = &bytes[at..at + 19];
    let mut value = 0;
    let mut count = 0;
    while count < 19 && digits[count].is_ascii_digit() {
        value = value * 10 + u64::from(digits[count] - b'0');
        count += 1;
    }
    (value, count)
}

/// Returns the natural number of at most nineteen digits at a place before a newline, and where the next line begins.
#[inline(always)]
fn natural_at(bytes: &[u8], at: usize) -> Option<(u64, usize)> {
    let (value, count) = digits_at(bytes, at);
    if count == 0 || bytes[at + count] != b'\n' || (count > 1 && bytes[at] == b'0') {
        return None;
    }
    Some((value, at + count + 1))
}

/// Does the same for a whole number: returns whether it is below 0, its magnitude, and where the next line begins. No
/// minus precedes 0.
#[inline(always)]
fn literal_at(bytes: &[u8], at: usize) -> Option<(bool, u64, usize)> {
    let below_zero = bytes[at] == b'-';
    let start = if below_zero { at + 1 } else { at };
    let (magnitude, end) = natural_at(bytes, start)?;
    if below_zero && magnitude == 0 {
        return None;
    }
    Some((below_zero, magnitude, end))
}

/// Returns the line with the operands at a place, and where the next line begins.
#[inline(always)]
fn operands_at(
    bytes: &[u8],
    at: usize,
    count: u8,
    kind: Arity,
    line: QuickLine,
) -> Option<(QuickLine, usize)> {
    match kind {
        Arity::Unary => {
            let (a, end) = register_before(bytes, at, b'\n', count)?;
            Some((QuickLine { a, ..line }, end))
        }
        Arity::Binary => {
            let (a, at) = register_before(bytes, at, b' ', count)?;
            let (b, end) = register_before(bytes, at, b'\n', count)?;
            Some((QuickLine { a, b, ..line }, end))
        }
        Arity::ByInteger => {
            let (a, at) = register_before(bytes, at, b' ', count)?;
            let (below_zero, magnitude, end) = literal_at(bytes, at)?;
            let line = QuickLine {
                a,
                below_zero,
                magnitude,
                ..line
            };
            Some((line, end))
        }
        Arity::Ternary => {
            let (a, at) = register_before(bytes, at, b' ', count)?;
            let (b, at) = register_before(bytes, at, b' ', count)?;
            let (c, end) = register_before(bytes, at, b'\n', count)?;
            Some((QuickLine { a, b, c, ..line }, end))
        }
    }
}

/// Returns the first line, and where the next one begins. `None` decides nothing: the general path reads the line.
#[inline(always)]
pub(crate) fn quick_line(bytes: &[u8], count: u8) -> Option<(QuickLine, usize)> {
    let (dest, at) = register_before(bytes, 0, b' ', count)?;
    let line = QuickLine {
        applied: None,
        dest,
        a: dest,
        b: dest,
        c: dest,
        below_zero: false,
        magnitude: 0,
    };
    if is_text(bytes, at, b"set ") {
        let (below_zero, magnitude, end) = literal_at(bytes, at + 4)?;
        let line = QuickLine {
            below_zero,
            magnitude,
            ..line
        };
        return Some((line, end));
    }
    let (policy, at) = policy_at(bytes, at)?;
    let (op, at) = op_at(bytes, at)?;
    let applied = Some(Applied { policy, op });
    operands_at(
        bytes,
        at,
        count,
        arity_of(op),
        QuickLine { applied, ..line },
    )
}
