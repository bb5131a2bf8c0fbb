// Made by `make package` of crates/fixed_filter/src/sample.rt, which is proved: changes go there.

//! Types that hold the word of a tap, a sample or an output: the word itself, or a number.

use crate::num::Fixed;
use crate::word::RawWord;

/// A type that holds a word.
pub(crate) trait Sample<T>: Copy {
    /// Returns the word.
    #[must_use]
    fn to_word(self) -> T;

    /// Returns the value that holds a word.
    #[must_use]
    fn from_word(word: T) -> Self;
}

impl<T: RawWord> Sample<T> for T {
    fn to_word(self) -> T {
        self
    }

    fn from_word(word: T) -> T {
        word
    }
}

impl<T: RawWord, const F: u32> Sample<T> for Fixed<T, F> {
    fn to_word(self) -> T {
        self.bits
    }

    fn from_word(word: T) -> Self {
        Fixed { bits: word }
    }
}
