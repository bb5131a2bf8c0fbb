// Made by `make package` of crates/fixed_interval/src/header.rt, which is proved: changes go there.

//! The first piece of a script.

use crate::text::{Tokens, WordName, read_natural, word_of};

/// A word, a number of fraction bits and a number of registers. `2^64` stands for each number of `2^64` or more.
#[derive(Clone, Copy)]
pub(crate) struct IntervalHeader {
    pub(crate) word: WordName,
    pub(crate) frac: u128,
    pub(crate) count: u128,
}

/// Returns the word, the number of fraction bits and the number of registers that the tokens name.
fn format_of(mut tokens: Tokens<'_>) -> Option<IntervalHeader> {
    let word = word_of(tokens.take()?)?;
    let frac = read_natural(tokens.take()?)?;
    let count = read_natural(tokens.take()?)?;
    if tokens.is_empty() {
        Some(IntervalHeader { word, frac, count })
    } else {
        None
    }
}

/// Returns the header whose text the piece is, or `None` if no header has that text.
pub(crate) fn read_header(piece: &[u8]) -> Option<IntervalHeader> {
    let mut tokens = Tokens::new(piece);
    let name = tokens.take()?;
    if name == b"interval".as_slice() {
        format_of(tokens)
    } else {
        None
    }
}
