// Made by `make package` of crates/fixed_interval/src/line.rt, which is proved: changes go there.

//! The lines of a script.

#[cfg(feature = "runs")]
use crate::interval::op::{IntervalOp, op_of};
use crate::text::{Decimal, Tokens, read_decimal, read_numbered};

/// What a line stores in its destination. `2^64` stands for each register of `2^64` or more.
#[derive(Clone, Copy)]
pub(crate) enum Request {
    Set(Decimal, Decimal),
    Two(IntervalOp, u128, u128),
    Root(u128),
}

/// A line after the header.
#[derive(Clone, Copy)]
pub(crate) struct Line {
    pub(crate) dest: u128,
    pub(crate) request: Request,
}

/// Returns two given ends.
fn set_of(mut tokens: Tokens<'_>) -> Option<Request> {
    let low = read_decimal(tokens.take()?)?;
    let high = read_decimal(tokens.take()?)?;
    if tokens.is_empty() {
        Some(Request::Set(low, high))
    } else {
        None
    }
}

/// Returns an operation with the registers that the tokens name.
fn two_of(op: IntervalOp, mut tokens: Tokens<'_>) -> Option<Request> {
    let a = read_numbered(b'i', tokens.take()?)?;
    let b = read_numbered(b'i', tokens.take()?)?;
    if tokens.is_empty() {
        Some(Request::Two(op, a, b))
    } else {
        None
    }
}

/// Returns a root with the register that the token names.
fn root_of(mut tokens: Tokens<'_>) -> Option<Request> {
    let a = read_numbered(b'i', tokens.take()?)?;
    if tokens.is_empty() {
        Some(Request::Root(a))
    } else {
        None
    }
}

/// Returns what the tokens after the destination request.
fn request_of(mut tokens: Tokens<'_>) -> Option<Request> {
    let name = tokens.take()?;
    if name == b"set".as_slice() {
        set_of(tokens)
    } else if name == b"sqrt".as_slice() {
        root_of(tokens)
    } else {
        let op = op_of(name)?;
        two_of(op, tokens)
    }
}

/// Returns the line whose text the piece is, or `None` if no line has that text.
pub(crate) fn read_line(piece: &[u8]) -> Option<Line> {
    let mut tokens = Tokens::new(piece);
    let dest = read_numbered(b'i', tokens.take()?)?;
    let request = request_of(tokens)?;
    Some(Line { dest, request })
}
