// Made by `make package` of crates/fixed_kernel/src/whole.rt, which is proved: changes go there.

//! Steps on words and on the integers that hold their products.

use crate::word::{Arithmetic, Integer, Outcome, Side, Word, outcome_of_whole};

/// Returns the product of two words, which leaves room to add a third.
#[inline]
#[must_use]
pub fn product<T: Word>(a: T, b: T) -> T::Whole {
    a.whole().times(b.whole())
}

/// Returns the outcome of a number that a word holds.
#[inline]
#[must_use]
pub fn fitting<T: Word>(word: T) -> Outcome<T> {
    outcome_of_whole(word.whole())
}

/// Returns the outcome of a number times `2^by`, from the outcome of the number.
#[must_use]
pub fn scaled<T: Word>(outcome: Outcome<T>, by: u32) -> Outcome<T> {
    let moved: Outcome<T> = outcome_of_whole(outcome.wrapped.whole().scaled(by));
    match outcome.side {
        Side::Fits => moved,
        _ => Outcome {
            wrapped: moved.wrapped,
            side: outcome.side,
        },
    }
}
