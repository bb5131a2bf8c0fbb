// Made by `make package` of crates/fixed_filter/src/header.rt, which is proved: changes go there.

//! The first piece of a script.

use crate::text::{Tokens, WordName, read_natural, word_of};

/// A word, and the numbers of fraction bits of outputs, taps and samples. A number of `2^64` or more is held as `2^64`.
#[derive(Clone, Copy)]
pub(crate) struct FilterHeader {
    pub(crate) word: WordName,
    pub(crate) out: u128,
    pub(crate) coef: u128,
    pub(crate) sample: u128,
}

/// Returns the word and the numbers of fraction bits that the tokens write, or `None` if the tokens are malformed.
fn format_of(mut tokens: Tokens<'_>) -> Option<FilterHeader> {
    let word = word_of(tokens.take()?)?;
    let out = read_natural(tokens.take()?)?;
    let coef = read_natural(tokens.take()?)?;
    let sample = read_natural(tokens.take()?)?;
    if tokens.is_empty() {
        Some(FilterHeader {
            word,
            out,
            coef,
            sample,
        })
    } else {
        None
    }
}

/// Returns the header whose text the piece is, or `None` if the piece is malformed.
pub(crate) fn read_header(piece: &[u8]) -> Option<FilterHeader> {
    let mut tokens = Tokens::new(piece);
    let name = tokens.take()?;
    if name == b"filter".as_slice() {
        format_of(tokens)
    } else {
        None
    }
}
