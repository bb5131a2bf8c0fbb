// Made by `make package` of crates/fixed_strict/src/numbers.rt, which is proved: changes go there.

//! Saturation of an outcome, as a number of a format.

use crate::stopping::{Fixed, saturating_number};
use crate::word::{Digits, Outcome, RawWord, Silent, Steps, Valued, Word, clamped_of};

/// Returns the nearest number that fits, by a choice at each end of the range.
pub(crate) fn clamped_number<T: Word, const F: u32>(outcome: Outcome<T>) -> Fixed<T, F> {
    Fixed {
        bits: clamped_of(outcome),
    }
}

/// Returns the nearest number that fits to a product. It chooses at each end of the range for the words whose loops are
/// faster that way.
pub(crate) fn held_number<T: Word, const F: u32>(outcome: Outcome<T>) -> Fixed<T, F> {
    if T::BITS < 32 || (T::BITS == 64 && !T::SIGNED) {
        clamped_number(outcome)
    } else {
        saturating_number(outcome)
    }
}

/// Returns the nearest number that fits to a number from 0 to `2^n - 1`. Loops over words of 8 and 16 bits find the
/// lesser of two unsigned words in one or two instructions.
pub(crate) fn capped_number<T: Word, const F: u32>(outcome: Outcome<T>) -> Fixed<T, F> {
    if T::BITS < 32 {
        Fixed {
            bits: T::from_unsigned(lesser(outcome.wrapped.to_unsigned(), T::MAX.to_unsigned())),
        }
    } else {
        held_number(outcome)
    }
}

/// Returns the lesser of two unsigned words. LLVM knows it as such where the second one is asked for first.
#[inline]
fn lesser<D: Digits<Silent>>(a: D, b: D) -> D {
    let mut steps = Steps::new(Silent::new());
    if b.at_most(a, &mut steps) { b } else { a }
}
