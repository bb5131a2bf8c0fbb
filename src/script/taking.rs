// Made by `make package` of crates/fixed_script/src/taking.rt, which is proved: changes go there.

//! Taking the tokens of a line one after another.

use crate::script::names::{Op, Policy, front_op, front_policy, op_of};
use crate::script::registers::{front_short_register, register_of};
use crate::text::{Decimal, Tokens, cut, read_decimal};

/// Returns the register that is the first token, and the bytes after its space, or `None` if the token is not a
/// register.
#[inline(never)]
fn register_in(piece: &[u8]) -> Option<(u128, Option<&[u8]>)> {
    let (token, rest) = cut(piece);
    let number = register_of(token)?;
    Some((number, rest))
}

/// Returns the whole number that is the first token, and the bytes after its space, or `None` if the token is not a
/// whole number.
#[inline(never)]
fn literal_in(piece: &[u8]) -> Option<(Decimal, Option<&[u8]>)> {
    let (token, rest) = cut(piece);
    let literal = read_decimal(token)?;
    Some((literal, rest))
}

/// Takes the next token and returns its register, or returns `None` if there is no token or it is not a register.
#[inline(always)]
pub(crate) fn take_register(tokens: &mut Tokens<'_>) -> Option<u128> {
    let piece = tokens.rest()?;
    if let Some((number, rest)) = front_short_register(piece) {
        tokens.go_on(rest);
        return Some(u128::from(number));
    }
    let (number, rest) = register_in(piece)?;
    tokens.go_on(rest);
    Some(number)
}

/// Takes the next token and returns its whole number, or returns `None` if there is no token or it is not a whole
/// number.
#[inline(always)]
pub(crate) fn take_literal(tokens: &mut Tokens<'_>) -> Option<Decimal> {
    let piece = tokens.rest()?;
    let (literal, rest) = literal_in(piece)?;
    tokens.go_on(rest);
    Some(literal)
}

/// Takes the next token if it is a policy, and returns that. If it returns `None`, it took no token.
#[inline(always)]
pub(crate) fn take_policy(tokens: &mut Tokens<'_>) -> Option<Policy> {
    let piece = tokens.rest()?;
    let (policy, rest) = front_policy(piece)?;
    tokens.go_on(Some(rest));
    Some(policy)
}

/// Takes the next token and returns its operation, or returns `None` if there is no token or it is not an operation.
#[inline(always)]
pub(crate) fn take_op(tokens: &mut Tokens<'_>) -> Option<Op> {
    let piece = tokens.rest()?;
    if let Some((op, rest)) = front_op(piece) {
        tokens.go_on(Some(rest));
        return Some(op);
    }
    op_of(tokens.take()?)
}
