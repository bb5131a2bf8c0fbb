// Made by `make package` of crates/fixed_natural/src/numbers.rt, which is proved: changes go there.

//! A test of words, which the typed calls make.

use crate::word::RawWord;

/// Returns whether the value of a word is above 0.
pub(crate) fn is_above_zero<T: RawWord>(word: T) -> bool {
    !word.is_below_zero() && word.magnitude() > 0
}
