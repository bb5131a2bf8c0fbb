// Made by `make package` of crates/fixed_turns/src/numbers.rt, which is proved: changes go there.

//! Pairs of numbers and of words, which the typed calls use.

use crate::stopping::Fixed;
use crate::word::RawWord;

/// Returns both numbers, or `None` if one of them is missing.
pub(crate) fn both_numbers<T: RawWord, const F: u32>(
    first: Option<Fixed<T, F>>,
    second: Option<Fixed<T, F>>,
) -> Option<(Fixed<T, F>, Fixed<T, F>)> {
    match (first, second) {
        (Some(first), Some(second)) => Some((first, second)),
        _ => None,
    }
}

/// Returns whether both words are 0.
pub(crate) fn is_origin<T: RawWord>(y: T, x: T) -> bool {
    x.magnitude() == 0 && y.magnitude() == 0
}
