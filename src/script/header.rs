// Made by `make package` of crates/fixed_script/src/header.rt, which is proved: changes go there.

//! The header of a script.

use crate::digits::{is_decimal, value_of};
use crate::text::{Tokens, WordName, cut, word_of};

/// A header, which borrows its text. Contracts see it as its word and its numbers of fraction bits, of which `2^64`
/// stands for each one of `2^64` or more.
pub struct Header<'a> {
    word: WordName,
    fractions: &'a [u8],
}

impl<'a> Header<'a> {
    /// Returns the word.
    ///
    /// # Examples
    ///
    /// ```
    /// use zugyelmas::calc::{WordName, parse_header};
    ///
    /// let header = parse_header(b"i8 4 6").expect("a header");
    /// assert_eq!(header.word(), WordName::I8);
    /// ```
    ///
    /// # Proved
    ///
    /// ```text
    /// ensures { result ≡ self.now.word }
    /// ```
    #[must_use]
    pub fn word(&self) -> WordName {
        self.word
    }

    /// Returns the numbers of fraction bits in order, one for each register.
    ///
    /// # Examples
    ///
    /// ```
    /// use zugyelmas::calc::{WordName, parse_header};
    ///
    /// let header = parse_header(b"i8 4 6").expect("a header");
    /// assert!(header.fractions().eq([4, 6]));
    /// ```
    ///
    /// # Proved
    ///
    /// ```text
    /// ensures { result ≡ self.now.fractions }
    /// ```
    #[must_use]
    pub fn fractions(&self) -> Fractions<'_> {
        Fractions {
            tokens: Tokens::new(self.fractions),
        }
    }
}

/// The remaining numbers of fraction bits of a header.
pub struct Fractions<'a> {
    tokens: Tokens<'a>,
}

impl<'a> Iterator for Fractions<'a> {
    type Item = u128;

    fn next(&mut self) -> Option<u128> {
        match self.tokens.take() {
            Some(token) => Some(value_of(token)),
            None => None,
        }
    }
}

/// Returns whether each token is a decimal.
fn all_decimal(bytes: &[u8]) -> bool {
    let mut tokens = Tokens::new(bytes);
    while let Some(token) = tokens.take() {
        if !is_decimal(token) {
            return false;
        }
    }
    true
}

/// Returns the header whose text the piece is, without its newline, or `None` if no header has that text.
///
/// # Examples
///
/// ```
/// use zugyelmas::calc::{WordName, parse_header};
///
/// let header = parse_header(b"u64 32").expect("a header");
/// assert_eq!(header.word(), WordName::U64);
/// assert!(parse_header(b"i9 4").is_none());
/// ```
///
/// # Proved
///
/// ```text
/// ensures none { IfNone result ((header : ScriptHeader) → header_text header ≡ piece.now → ⊥) }
/// ensures found { IfSome result (λ read. (header : ScriptHeader)
///     × (header_text header ≡ piece.now) × (read ≡ capped_header header)) }
/// ```
///
/// Definitions: [`header_text`], [`capped_header`].
///
/// [`header_text`]: crate::definitions::script_text
/// [`capped_header`]: crate::definitions::script_headers
#[must_use]
pub fn parse_header(piece: &[u8]) -> Option<Header<'_>> {
    let (name, fractions) = cut(piece);
    let Some(word) = word_of(name) else {
        return None;
    };
    let Some(fractions) = fractions else {
        return None;
    };
    if all_decimal(fractions) {
        Some(Header { word, fractions })
    } else {
        None
    }
}
