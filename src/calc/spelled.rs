// Made by `make package` of crates/fixed_calc/src/spelled.rt, which is proved: changes go there.

//! A script in which each line that may name a rounding names one.

use crate::calc::demo::Script;
use crate::memory::Vec;
use crate::memory::{AllocError, Global};
use crate::script::{Line, Rounding, default_rounding, header_of_piece, line_of_piece};
use crate::text::piece_end;

/// Why a script cannot be spelled out.
#[derive(Debug, PartialEq, Eq)]
pub enum ExplicitFault {
    /// The piece with this number is the first that is not a header or a line.
    Syntax(u64),
    /// Memory ran out.
    Memory,
}

/// Returns the rounding that is added to a line, if there is one.
fn added(line: &Line) -> Option<Rounding> {
    match line {
        Line::Set { .. } => None,
        Line::One { op, rounding, .. }
        | Line::Two { op, rounding, .. }
        | Line::Int { op, rounding, .. }
        | Line::Three { op, rounding, .. } => match rounding {
            Some(_) => None,
            None => default_rounding(*op),
        },
    }
}

/// Returns the end of a line that names the rounding.
fn end_of(rounding: Rounding) -> &'static [u8] {
    match rounding {
        Rounding::Down => b" down\n",
        Rounding::Zero => b" zero\n",
        Rounding::Even => b" even\n",
    }
}

/// Adds a piece, with the rounding that is added to its line.
fn push_spelled(script: &mut Vec<u8>, piece: &[u8], line: &Line) -> Result<(), AllocError> {
    match added(line) {
        Some(rounding) => {
            script.extend_from_slice(&piece[..piece.len() - 1])?;
            script.extend_from_slice(end_of(rounding))
        }
        None => script.extend_from_slice(piece),
    }
}

/// Adds the first line of the rest, spelled out, and returns where it ends.
fn spell_line(script: &mut Vec<u8>, rest: &[u8], number: u64) -> Result<usize, ExplicitFault> {
    let end = piece_end(rest);
    let Some(line) = line_of_piece(&rest[..end]) else {
        return Err(ExplicitFault::Syntax(number));
    };
    match push_spelled(script, &rest[..end], &line) {
        Ok(()) => Ok(end),
        Err(_) => Err(ExplicitFault::Memory),
    }
}

/// Adds the lines after the header, spelled out.
fn spell_lines(script: &mut Vec<u8>, lines: &[u8]) -> Result<(), ExplicitFault> {
    let mut at = 0;
    let mut number = 2;
    while at < lines.len() {
        match spell_line(script, &lines[at..], number) {
            Ok(end) => at += end,
            Err(fault) => return Err(fault),
        }
        number += 1;
    }
    Ok(())
}

/// Returns the script in which each line that may name a rounding names one: its own, or its operation's default. Fails
/// with `Syntax` and the number of the first piece that is not a header or a line, which is 1 for an empty script.
/// Whatever the script is, it may fail with `Memory`, if memory runs out.
///
/// # Examples
///
/// ```
/// use zugyelmas::calc::{ExplicitFault, explicit};
/// use zugyelmas::memory::Global;
///
/// let script = explicit(Global, b"i8 4\nr0 checked mul r0 r0\n").expect("a script");
/// assert_eq!(script.as_bytes(), b"i8 4\nr0 checked mul r0 r0 down\n");
/// let fault = explicit(Global, b"i8 4\nr0\n").err();
/// assert_eq!(fault, Some(ExplicitFault::Syntax(2)));
/// ```
///
/// # Proved
///
/// ```text
/// ensures { IsAnswerOfSpelling (spelled script.now) result }
/// ```
///
/// Definitions: [`IsAnswerOfSpelling`], [`spelled`].
///
/// [`IsAnswerOfSpelling`]: crate::definitions::calc_spelled
/// [`spelled`]: crate::definitions::calc_spelled
pub fn explicit(alloc: Global, script: &[u8]) -> Result<Script, ExplicitFault> {
    if script.is_empty() {
        return Err(ExplicitFault::Syntax(1));
    }
    let end = piece_end(script);
    let Some(_header) = header_of_piece(&script[..end]) else {
        return Err(ExplicitFault::Syntax(1));
    };
    // A line that gets a rounding has at least 19 bytes, and grows by 5.
    let Ok(mut bytes) = Vec::with_capacity(alloc, script.len() + script.len() / 2) else {
        return Err(ExplicitFault::Memory);
    };
    let Ok(()) = bytes.extend_from_slice(&script[..end]) else {
        return Err(ExplicitFault::Memory);
    };
    match spell_lines(&mut bytes, &script[end..]) {
        Ok(()) => Ok(Script::new(bytes)),
        Err(fault) => Err(fault),
    }
}

impl core::fmt::Display for ExplicitFault {
    fn fmt(&self, f: &mut core::fmt::Formatter<'_>) -> core::fmt::Result {
        match self {
            Self::Syntax { 0: field, .. } => write!(f, "line {0}: syntax", field),
            Self::Memory { .. } => write!(f, "out of memory"),
        }
    }
}

impl core::error::Error for ExplicitFault {}
