// Made by `make package` of crates/fixed_interval/src/roots.rt, which is proved: changes go there.

//! Roots of intervals.

use crate::interval::interval::{Interval, between};
use crate::kernel::sqrt_of;
use crate::root::scaled_root;
use crate::word::{Outcome, RawWord, Word, outcome_of};

/// Returns the interval of the square roots of the numbers in `a`, each bits over `2^frac`: from the root of the low
/// end, rounded down, to that of the high end, rounded up. Returns `None` if the low end is below 0 or an end does not
/// fit. Precondition: `frac` is at most the width.
///
/// # Examples
///
/// ```
/// use zugyelmas::{Interval, sqrt_in};
/// let interval = |lo: i8, hi| Interval::new(lo, hi).expect("ends in order");
/// let ends = |interval: Interval<i8>| (interval.lo(), interval.hi());
///
/// // From 2 to 2.25: the roots are from 1.414.., rounded down to 1.375, to 1.5.
/// assert_eq!(sqrt_in(&interval(32, 36), 4).map(ends), Some((22, 24)));
/// assert_eq!(sqrt_in(&interval(-1, 36), 4).map(ends), None); // the low end has no root
/// ```
///
/// ```should_panic
/// # use zugyelmas::{Interval, sqrt_in};
/// # let interval = |lo: i8, hi| Interval::new(lo, hi).expect("ends in order");
/// # let ends = |interval: Interval<i8>| (interval.lo(), interval.hi());
/// # std::panic::set_hook(Box::new(|_| {}));
/// sqrt_in(&interval(32, 36), 9); // the fraction is above the width
/// ```
///
/// # Panics
///
/// Panics unless the fraction frac is at most the width.
///
/// # Proved
///
/// ```text
/// requires { frac ≤ T.BITS }
/// ensures ends { option_map (ends_of T.value) result ≡ fitting T.SIGNED T.BITS (root_ends (ends_of T.value a.now) frac) }
/// ensures holds { IfSome result (λ i. HoldsRoots (ends_of T.value a.now) frac (ends_of T.value i)) }
/// ```
///
/// Definitions: [`ends_of`], [`fitting`], [`root_ends`], [`HoldsRoots`].
///
/// [`ends_of`]: crate::definitions::interval_ends
/// [`fitting`]: crate::definitions::interval_ends
/// [`root_ends`]: crate::definitions::interval_ends
/// [`HoldsRoots`]: crate::definitions::interval_containment
#[track_caller]
#[must_use]
pub fn sqrt_in<T: Word>(a: &Interval<T>, frac: u32) -> Option<Interval<T>> {
    assert!(
        frac <= T::BITS,
        "precondition: the fraction frac is at most the width"
    );
    let (low, high) = (a.lo(), a.hi());
    if low.is_below_zero() {
        return None;
    }
    between(sqrt_of(low, frac), ceiling_sqrt_of(high, frac))
}

/// Returns the outcome of the root of `a 2^frac`, rounded up. Precondition: `a` is at least 0.
fn ceiling_sqrt_of<T: Word>(a: T, frac: u32) -> Outcome<T> {
    let found = floor_root(a, frac);
    if scaled(a, frac) <= found * found {
        outcome_of(false, found)
    } else {
        outcome_of(false, found + 1)
    }
}

/// Returns the root of `a 2^frac`, rounded down. Precondition: `a` is at least 0.
fn floor_root<T: Word>(a: T, frac: u32) -> u128 {
    scaled_root(a.magnitude(), frac) as u128
}

/// Returns `a 2^frac`. Precondition: `a` is at least 0.
fn scaled<T: RawWord>(a: T, frac: u32) -> u128 {
    (a.magnitude() as u128) << frac
}
