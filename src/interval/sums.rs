// Made by `make package` of crates/fixed_interval/src/sums.rt, which is proved: changes go there.

//! Sums and differences of intervals.

use crate::interval::interval::{Interval, between};
use crate::kernel::{add_of, sub_of};
use crate::word::Word;

/// Returns the interval of the sums of a number in `a` and one in `b`, which have the same number of fraction bits:
/// from the sum of the low ends to that of the high ones. Returns `None` if an end does not fit. Nothing is rounded.
///
/// # Examples
///
/// ```
/// use zugyelmas::{Interval, add_in};
/// let interval = |lo: i8, hi| Interval::new(lo, hi).expect("ends in order");
/// let ends = |interval: Interval<i8>| (interval.lo(), interval.hi());
///
/// // From 1 to 1.5, and from -2 to 3: from -1 to 4.5.
/// assert_eq!(add_in(&interval(16, 24), &interval(-32, 48)).map(ends), Some((-16, 72)));
/// // 8.5 does not fit
/// assert_eq!(add_in(&interval(16, 24), &interval(0, 112)).map(ends), None);
/// ```
///
/// # Proved
///
/// ```text
/// ensures ends { option_map (ends_of T.value) result ≡ fitting T.SIGNED T.BITS (sum_ends (ends_of T.value a.now) (ends_of T.value b.now)) }
/// ensures holds { IfSome result (λ i. HoldsSums (ends_of T.value a.now) (ends_of T.value b.now) (ends_of T.value i)) }
/// ```
///
/// Definitions: [`ends_of`], [`fitting`], [`sum_ends`], [`HoldsSums`].
///
/// [`ends_of`]: crate::definitions::interval_ends
/// [`fitting`]: crate::definitions::interval_ends
/// [`sum_ends`]: crate::definitions::interval_ends
/// [`HoldsSums`]: crate::definitions::interval_containment
#[must_use]
pub fn add_in<T: Word>(a: &Interval<T>, b: &Interval<T>) -> Option<Interval<T>> {
    between(add_of(a.lo(), b.lo()), add_of(a.hi(), b.hi()))
}

/// Returns the interval of the differences of a number in `a` and one in `b`, which have the same number of fraction
/// bits: from the low end of `a` minus the high end of `b` to the high end of `a` minus the low end of `b`. Returns
/// `None` if an end does not fit. Nothing is rounded.
///
/// # Examples
///
/// ```
/// use zugyelmas::{Interval, sub_in};
/// let interval = |lo: i8, hi| Interval::new(lo, hi).expect("ends in order");
/// let ends = |interval: Interval<i8>| (interval.lo(), interval.hi());
///
/// // From 1 to 1.5, less from -2 to 3: from -2 to 3.5.
/// assert_eq!(sub_in(&interval(16, 24), &interval(-32, 48)).map(ends), Some((-32, 56)));
/// // 8.5 does not fit
/// assert_eq!(sub_in(&interval(16, 24), &interval(-112, 0)).map(ends), None);
/// ```
///
/// # Proved
///
/// ```text
/// ensures ends { option_map (ends_of T.value) result ≡ fitting T.SIGNED T.BITS (difference_ends (ends_of T.value a.now) (ends_of T.value b.now)) }
/// ensures holds { IfSome result (λ i. HoldsDifferences (ends_of T.value a.now) (ends_of T.value b.now) (ends_of T.value i)) }
/// ```
///
/// Definitions: [`ends_of`], [`difference_ends`], [`fitting`], [`HoldsDifferences`].
///
/// [`ends_of`]: crate::definitions::interval_ends
/// [`difference_ends`]: crate::definitions::interval_ends
/// [`fitting`]: crate::definitions::interval_ends
/// [`HoldsDifferences`]: crate::definitions::interval_containment
#[must_use]
pub fn sub_in<T: Word>(a: &Interval<T>, b: &Interval<T>) -> Option<Interval<T>> {
    between(sub_of(a.lo(), b.hi()), sub_of(a.hi(), b.lo()))
}
