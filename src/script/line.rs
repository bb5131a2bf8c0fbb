// Made by `make package` of crates/fixed_script/src/line.rt, which is proved: changes go there.

//! The lines of a script.

use crate::script::names::{Op, Policy, default_rounding, policy_of, rounding_of};
use crate::script::taking::{take_literal, take_op, take_policy, take_register};
use crate::text::{Decimal, Tokens};
use crate::word::Rounding;

/// The operands that an operation takes.
#[derive(Clone, Copy, Debug, PartialEq, Eq)]
pub enum Arity {
    Unary,
    Binary,
    ByInteger,
    Ternary,
}

/// A line after the header. Registers and literals are in the order of the text. `2^64` stands for each number of
/// `2^64` or more, which is not a declared register and not the value of any word. Operations that round may name a
/// rounding.
#[derive(Clone, Copy, Debug, PartialEq, Eq)]
pub enum Line {
    Set {
        dest: u128,
        literal: Decimal,
    },
    One {
        dest: u128,
        policy: Policy,
        op: Op,
        a: u128,
        rounding: Option<Rounding>,
    },
    Two {
        dest: u128,
        policy: Policy,
        op: Op,
        a: u128,
        b: u128,
        rounding: Option<Rounding>,
    },
    Int {
        dest: u128,
        policy: Policy,
        op: Op,
        a: u128,
        literal: Decimal,
        rounding: Option<Rounding>,
    },
    Three {
        dest: u128,
        policy: Policy,
        op: Op,
        a: u128,
        b: u128,
        c: u128,
        rounding: Option<Rounding>,
    },
}

/// Returns which operands the operation takes.
///
/// # Examples
///
/// ```
/// use zugyelmas::script::{Op, Arity, arity_of};
///
/// assert_eq!(arity_of(Op::Sqrt), Arity::Unary);
/// assert_eq!(arity_of(Op::Add), Arity::Binary);
/// assert_eq!(arity_of(Op::MulInt), Arity::ByInteger);
/// assert_eq!(arity_of(Op::AddProd), Arity::Ternary);
/// ```
///
/// # Proved
///
/// ```text
/// ensures { result ≡ arity op }
/// ```
///
/// Definitions: [`arity`].
///
/// [`arity`]: crate::definitions::script_names
#[must_use]
pub fn arity_of(op: Op) -> Arity {
    match op {
        Op::Neg | Op::Recip | Op::Sqrt | Op::Abs | Op::Signum | Op::NextPowerOfTwo => Arity::Unary,
        Op::Add
        | Op::Sub
        | Op::Mul
        | Op::Div
        | Op::DivEuclid
        | Op::NextMultipleOf
        | Op::Dist
        | Op::Rem
        | Op::RemEuclid => Arity::Binary,
        Op::MulInt | Op::DivInt | Op::DivEuclidInt | Op::RemEuclidInt | Op::RemInt => {
            Arity::ByInteger
        }
        Op::MulAdd | Op::AddProd => Arity::Ternary,
    }
}

/// Returns whether the operation may name its rounding.
///
/// # Examples
///
/// ```
/// use zugyelmas::script::{Op, Rounding, default_rounding, takes_rounding};
///
/// assert!(takes_rounding(Op::Mul));
/// assert!(!takes_rounding(Op::Add)); // a sum has nothing to round
/// ```
///
/// # Proved
///
/// ```text
/// ensures { result ≡ rounds op }
/// ```
#[must_use]
pub fn takes_rounding(op: Op) -> bool {
    default_rounding(op).is_some()
}

/// Returns the line if no token remains, and otherwise `None`.
fn at_end(tokens: &Tokens<'_>, line: Line) -> Option<Line> {
    if tokens.is_empty() { Some(line) } else { None }
}

fn set_of(dest: u128, tokens: &mut Tokens<'_>) -> Option<Line> {
    let literal = take_literal(tokens)?;
    at_end(tokens, Line::Set { dest, literal })
}

/// Returns the rounding that the last token names. The tokens are passed by value, so that those of the lines without a
/// rounding stay in registers.
#[inline(never)]
fn named_rounding(op: Op, mut tokens: Tokens<'_>) -> Option<Rounding> {
    let rounding = rounding_of(tokens.take()?)?;
    if takes_rounding(op) && tokens.is_empty() {
        Some(rounding)
    } else {
        None
    }
}

/// Returns the rounding that the last token names, or none if no token remains.
#[inline(always)]
fn rounding_at_end(op: Op, tokens: Tokens<'_>) -> Option<Option<Rounding>> {
    if tokens.is_empty() {
        Some(None)
    } else {
        Some(Some(named_rounding(op, tokens)?))
    }
}

fn operands_of(
    dest: u128,
    policy: Policy,
    op: Op,
    a: u128,
    mut tokens: Tokens<'_>,
) -> Option<Line> {
    match arity_of(op) {
        Arity::Unary => {
            let rounding = rounding_at_end(op, tokens)?;
            Some(Line::One {
                dest,
                policy,
                op,
                a,
                rounding,
            })
        }
        Arity::Binary => {
            let b = take_register(&mut tokens)?;
            let rounding = rounding_at_end(op, tokens)?;
            Some(Line::Two {
                dest,
                policy,
                op,
                a,
                b,
                rounding,
            })
        }
        Arity::ByInteger => {
            let literal = take_literal(&mut tokens)?;
            let rounding = rounding_at_end(op, tokens)?;
            Some(Line::Int {
                dest,
                policy,
                op,
                a,
                literal,
                rounding,
            })
        }
        Arity::Ternary => {
            let b = take_register(&mut tokens)?;
            let c = take_register(&mut tokens)?;
            let rounding = rounding_at_end(op, tokens)?;
            Some(Line::Three {
                dest,
                policy,
                op,
                a,
                b,
                c,
                rounding,
            })
        }
    }
}

fn apply_of(dest: u128, policy: Policy, mut tokens: Tokens<'_>) -> Option<Line> {
    let op = take_op(&mut tokens)?;
    let a = take_register(&mut tokens)?;
    operands_of(dest, policy, op, a, tokens)
}

/// Returns the line with these tokens, or `None` if no line has them.
fn line_from(mut tokens: Tokens<'_>) -> Option<Line> {
    let dest = take_register(&mut tokens)?;
    let policy = match take_policy(&mut tokens) {
        Some(policy) => policy,
        None => {
            let name = tokens.take()?;
            if name == b"set".as_slice() {
                return set_of(dest, &mut tokens);
            }
            policy_of(name)?
        }
    };
    apply_of(dest, policy, tokens)
}

/// Returns the line whose text the piece is, without its newline, or `None` if no line has that text.
///
/// # Examples
///
/// ```
/// use zugyelmas::calc::{Line, Literal, parse_line};
///
/// let literal = Literal { below_zero: true, magnitude: 5 };
/// assert_eq!(parse_line(b"r0 set -5"), Some(Line::Set { dest: 0, literal }));
/// assert_eq!(parse_line(b"r0 set 05"), None); // no 0 in front
/// ```
///
/// # Proved
///
/// ```text
/// ensures none { IfNone result
///     ((line : ScriptLine) → IsLine line → line_text line ≡ piece.now → ⊥) }
/// ensures found { IfSome result (λ read. (line : ScriptLine)
///     × IsLine line × (line_text line ≡ piece.now) × (checked_script_line read ≡ Some (capped line))) }
/// ```
///
/// Definitions: [`IsLine`], [`line_text`], [`capped`], [`checked_script_line`].
///
/// [`IsLine`]: crate::definitions::script_text
/// [`line_text`]: crate::definitions::script_text
/// [`capped`]: crate::definitions::script_capped
/// [`checked_script_line`]: crate::definitions::script_capped
#[must_use]
pub fn parse_line(piece: &[u8]) -> Option<Line> {
    line_from(Tokens::new(piece))
}
