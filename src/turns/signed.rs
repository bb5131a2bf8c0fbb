// Made by `make package` of crates/fixed_turns/src/signed.rt, which is proved: changes go there.

//! Numbers as their sign and their magnitude.

use crate::word::{Outcome, RawWord, Side};

/// A number as its sign and its magnitude.
#[derive(Clone, Copy)]
pub(crate) struct Signed {
    pub(crate) below_zero: bool,
    pub(crate) magnitude: u128,
}

/// Returns on which side of the range of a word the number is.
#[inline(always)]
fn side_in<T: RawWord>(number: Signed) -> Side {
    let end = T::MAX.unless(number.below_zero, T::MIN);
    if number.magnitude <= u128::from(end.magnitude()) {
        Side::Fits
    } else if number.below_zero {
        Side::Below
    } else {
        Side::Above
    }
}

/// Returns the outcome of the number. Its sign compiles to selections, since no branch can be predicted by it.
#[inline(always)]
pub(crate) fn outcome_of_signed<T: RawWord>(number: Signed) -> Outcome<T> {
    let opposite = T::residue(true, number.magnitude);
    Outcome {
        wrapped: T::residue(false, number.magnitude).unless(number.below_zero, opposite),
        side: side_in::<T>(number),
    }
}
