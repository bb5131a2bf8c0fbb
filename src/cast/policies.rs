// Made by `make package` of crates/fixed_cast/src/policies.rt, which is proved: changes go there.

//! What each policy makes of an outcome, as a number of a format or an integer.

use crate::cast::numeric::Numeric;
use crate::word::{Outcome, RawWord, Side, nearest_of};

/// Returns the number, or `None` if it does not fit.
#[inline]
pub(crate) fn checked_num<N: Numeric>(outcome: Outcome<N::Word>) -> Option<N> {
    match outcome.side {
        Side::Fits => Some(N::from_word(outcome.wrapped)),
        Side::Above | Side::Below => None,
    }
}

/// Returns the wrapped number, and whether the exact number does not fit.
#[inline]
#[track_caller]
pub(crate) fn overflowing_num<N: Numeric>(outcome: Outcome<N::Word>) -> (N, bool) {
    (N::from_word(outcome.wrapped), outcome.side != Side::Fits)
}

/// Returns the wrapped number.
#[inline]
#[track_caller]
pub(crate) fn wrapping_num<N: Numeric>(outcome: Outcome<N::Word>) -> N {
    N::from_word(outcome.wrapped)
}

/// Returns the nearest number that fits.
#[inline]
pub(crate) fn saturating_num<N: Numeric>(outcome: Outcome<N::Word>) -> N {
    N::from_word(nearest_of(outcome))
}

/// Returns the number if it fits.
#[inline]
#[track_caller]
pub(crate) fn exact_num<N: Numeric>(outcome: Outcome<N::Word>) -> N {
    N::from_word(exact_word(outcome))
}

/// Returns the word of a number if that fits.
#[inline]
#[track_caller]
fn exact_word<T: RawWord>(outcome: Outcome<T>) -> T {
    debug_assert!(
        outcome.side == crate::word::Side::Fits,
        "precondition: the number fits"
    );
    outcome.wrapped
}

/// Returns the number of an outcome. Precondition: it fits.
#[inline]
#[track_caller]
pub(crate) fn strict_num<N: Numeric>(outcome: Outcome<N::Word>) -> N {
    N::from_word(strict_word(outcome))
}

/// Returns the word of a number. Precondition: it fits.
#[inline]
#[track_caller]
pub(crate) fn strict_word<T: RawWord>(outcome: Outcome<T>) -> T {
    assert!(
        outcome.side == crate::word::Side::Fits,
        "precondition: the number fits"
    );
    outcome.wrapped
}
