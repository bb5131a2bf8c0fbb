// Made by `make package` of crates/fixed_poly/src/header.rt, which is proved: changes go there.

//! The first piece of a script.

use crate::text::{Tokens, WordName, read_natural, word_of};

/// A word and a number of fraction bits. A number of `2^64` or more is held as `2^64`.
#[derive(Clone, Copy)]
pub(crate) struct PolyHeader {
    pub(crate) word: WordName,
    pub(crate) frac: u128,
}

/// Returns the word and the number of fraction bits that the tokens write, or `None` if the tokens are malformed.
fn format_of(mut tokens: Tokens<'_>) -> Option<PolyHeader> {
    let word = word_of(tokens.take()?)?;
    let frac = read_natural(tokens.take()?)?;
    if tokens.is_empty() {
        Some(PolyHeader { word, frac })
    } else {
        None
    }
}

/// Returns the header whose text the piece is, or `None` if the piece is malformed.
pub(crate) fn read_header(piece: &[u8]) -> Option<PolyHeader> {
    let mut tokens = Tokens::new(piece);
    let name = tokens.take()?;
    if name == b"poly".as_slice() {
        format_of(tokens)
    } else {
        None
    }
}
