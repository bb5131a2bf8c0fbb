// Made by `make package` of crates/fixed_bits/src/pattern.rt, which is proved: changes go there.

//! The bit pattern of a word as an unsigned integer, and back.

use crate::word::{RawWord, Word};

/// Returns the number from 0 to `2^n - 1` with the bit pattern of the word.
pub(crate) fn pattern_of<T: Word>(word: T) -> u64 {
    word.to_unsigned().magnitude()
}

/// Returns the word with the n least significant bits of a number.
pub(crate) fn word_of<T: Word>(pattern: u128) -> T {
    T::residue(false, pattern)
}

/// Returns the pattern rotated left by `by`.
pub(crate) fn rotated(pattern: u64, by: u32, width: u32) -> u128 {
    (pattern as u128) << by | (pattern as u128) >> (width - by)
}
