// Made by `make package` of crates/fixed_text/src/names.rt, which is proved: changes go there.

//! The names of words in a script.

/// A word of a script. The names are `i8 i16 i32 i64 u8 u16 u32 u64`.
#[derive(Clone, Copy, Debug, PartialEq, Eq)]
pub enum WordName {
    I8,
    I16,
    I32,
    I64,
    U8,
    U16,
    U32,
    U64,
}

impl WordName {
    /// Returns whether the word has values below 0.
    ///
    /// # Examples
    ///
    /// ```
    /// use zugyelmas::text::{WordName, word_of};
    ///
    /// assert!(WordName::I16.is_signed());
    /// assert!(!WordName::U16.is_signed());
    /// ```
    ///
    /// # Proved
    ///
    /// ```text
    /// ensures { result ≡ is_signed self }
    /// ```
    ///
    /// Definitions: [`is_signed`].
    ///
    /// [`is_signed`]: crate::definitions::text_words
    #[must_use]
    pub fn is_signed(self) -> bool {
        match self {
            WordName::I8 | WordName::I16 | WordName::I32 | WordName::I64 => true,
            WordName::U8 | WordName::U16 | WordName::U32 | WordName::U64 => false,
        }
    }

    /// Returns how many bits the word has.
    ///
    /// # Examples
    ///
    /// ```
    /// use zugyelmas::text::{WordName, word_of};
    ///
    /// assert_eq!(WordName::I16.width(), 16);
    /// ```
    ///
    /// # Proved
    ///
    /// ```text
    /// ensures { result ≡ width self }
    /// ```
    ///
    /// Definitions: [`width`].
    ///
    /// [`width`]: crate::definitions::text_words
    #[must_use]
    pub fn width(self) -> u32 {
        match self {
            WordName::I8 | WordName::U8 => 8,
            WordName::I16 | WordName::U16 => 16,
            WordName::I32 | WordName::U32 => 32,
            WordName::I64 | WordName::U64 => 64,
        }
    }
}

/// Returns the word with this name, or `None` if there is none.
///
/// # Examples
///
/// ```
/// use zugyelmas::text::{WordName, word_of};
///
/// assert_eq!(word_of(b"i16"), Some(WordName::I16));
/// assert_eq!(word_of(b"i128"), None);
/// ```
///
/// # Proved
///
/// ```text
/// ensures { result ≡ word_named token.now }
/// ```
///
/// Definitions: [`word_named`].
///
/// [`word_named`]: crate::definitions::text_words
#[must_use]
pub fn word_of(token: &[u8]) -> Option<WordName> {
    if token == b"i8".as_slice() {
        Some(WordName::I8)
    } else if token == b"i16".as_slice() {
        Some(WordName::I16)
    } else if token == b"i32".as_slice() {
        Some(WordName::I32)
    } else if token == b"i64".as_slice() {
        Some(WordName::I64)
    } else if token == b"u8".as_slice() {
        Some(WordName::U8)
    } else if token == b"u16".as_slice() {
        Some(WordName::U16)
    } else if token == b"u32".as_slice() {
        Some(WordName::U32)
    } else if token == b"u64".as_slice() {
        Some(WordName::U64)
    } else {
        None
    }
}
