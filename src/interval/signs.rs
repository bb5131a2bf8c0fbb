// Made by `make package` of crates/fixed_interval/src/signs.rt, which is proved: changes go there.

//! Negatives and magnitudes of intervals.

use crate::interval::interval::{Interval, between};
use crate::kernel::{dist_of, neg_of};
use crate::word::{RawWord, Word};

/// Returns the interval of the negatives of the numbers in `a`, or `None` if an end does not fit. Nothing is rounded.
///
/// # Examples
///
/// ```
/// use zugyelmas::{Interval, neg_in};
/// let interval = |lo: i8, hi| Interval::new(lo, hi).expect("ends in order");
/// let ends = |interval: Interval<i8>| (interval.lo(), interval.hi());
///
/// // from -1 to 1.5: from -1.5 to 1
/// assert_eq!(neg_in(&interval(-16, 24)).map(ends), Some((-24, 16)));
/// assert_eq!(neg_in(&interval(-128, 24)).map(ends), None); // 8 does not fit
/// ```
///
/// # Proved
///
/// ```text
/// ensures ends { option_map (ends_of T.value) result ≡ fitting T.SIGNED T.BITS (negation_ends (ends_of T.value a.now)) }
/// ensures holds { IfSome result (λ i. HoldsNegations (ends_of T.value a.now) (ends_of T.value i)) }
/// ```
///
/// Definitions: [`ends_of`], [`fitting`], [`negation_ends`], [`HoldsNegations`].
///
/// [`ends_of`]: crate::definitions::interval_ends
/// [`fitting`]: crate::definitions::interval_ends
/// [`negation_ends`]: crate::definitions::interval_ends
/// [`HoldsNegations`]: crate::definitions::interval_containment
#[must_use]
pub fn neg_in<T: Word>(a: &Interval<T>) -> Option<Interval<T>> {
    between(neg_of(a.hi()), neg_of(a.lo()))
}

/// Returns the interval of the magnitudes of the numbers in `a`, or `None` if an end does not fit. Nothing is rounded.
///
/// # Examples
///
/// ```
/// use zugyelmas::{Interval, abs_in};
/// let interval = |lo: i8, hi| Interval::new(lo, hi).expect("ends in order");
/// let ends = |interval: Interval<i8>| (interval.lo(), interval.hi());
///
/// // from -1 to 1.5: from 0 to 1.5
/// assert_eq!(abs_in(&interval(-16, 24)).map(ends), Some((0, 24)));
/// assert_eq!(abs_in(&interval(-24, -16)).map(ends), Some((16, 24)));
/// assert_eq!(abs_in(&interval(-128, 24)).map(ends), None); // 8 does not fit
/// ```
///
/// # Proved
///
/// ```text
/// ensures ends { option_map (ends_of T.value) result ≡ fitting T.SIGNED T.BITS (magnitude_ends (ends_of T.value a.now)) }
/// ensures holds { IfSome result (λ i. HoldsMagnitudes (ends_of T.value a.now) (ends_of T.value i)) }
/// ```
///
/// Definitions: [`ends_of`], [`fitting`], [`magnitude_ends`], [`HoldsMagnitudes`].
///
/// [`ends_of`]: crate::definitions::interval_ends
/// [`fitting`]: crate::definitions::interval_ends
/// [`magnitude_ends`]: crate::definitions::interval_ends
/// [`HoldsMagnitudes`]: crate::definitions::interval_containment
#[must_use]
pub fn abs_in<T: Word>(a: &Interval<T>) -> Option<Interval<T>> {
    between(
        dist_of(nearest_to_zero(a), T::ZERO),
        dist_of(farthest_from_zero(a), T::ZERO),
    )
}

/// Returns the number of `a` that is nearest to 0.
#[inline]
pub(crate) fn nearest_to_zero<T: Word>(a: &Interval<T>) -> T {
    let (low, high) = (a.lo(), a.hi());
    if high.is_below_zero() {
        high
    } else if low.is_below_zero() {
        T::ZERO
    } else {
        low
    }
}

/// Returns the end of `a` that is farther from 0. If both are as far, it returns the high one.
#[inline]
pub(crate) fn farthest_from_zero<T: Word>(a: &Interval<T>) -> T {
    let (low, high) = (a.lo(), a.hi());
    if high.magnitude() < low.magnitude() {
        low
    } else {
        high
    }
}
