// Made by `make package` of crates/fixed_interval/src/quotients.rt, which is proved: changes go there.

//! Quotients of intervals.

use crate::interval::interval::{Interval, between, is_at_most};
use crate::interval::signed_magnitude::{Outward, SignedMagnitude};
use crate::word::{RawWord, Word};

/// Returns the interval of the quotients of a number in `a` by one in `b`, each bits over `2^frac`: from the least
/// quotient of two ends, rounded down, to the greatest, rounded up. Returns `None` if 0 is in `b` or an end does not
/// fit. Precondition: `frac` is at most the width.
///
/// # Examples
///
/// ```
/// use zugyelmas::{Interval, div_in};
/// let interval = |lo: i8, hi| Interval::new(lo, hi).expect("ends in order");
/// let ends = |interval: Interval<i8>| (interval.lo(), interval.hi());
///
/// // 1 by 3 is 5.33.. units, which is rounded outward.
/// assert_eq!(div_in(&interval(16, 16), &interval(48, 48), 4).map(ends), Some((5, 6)));
/// // 0 is among the divisors
/// assert_eq!(div_in(&interval(16, 16), &interval(-1, 1), 4).map(ends), None);
/// ```
///
/// ```should_panic
/// # use zugyelmas::{Interval, div_in};
/// # let interval = |lo: i8, hi| Interval::new(lo, hi).expect("ends in order");
/// # let ends = |interval: Interval<i8>| (interval.lo(), interval.hi());
/// # std::panic::set_hook(Box::new(|_| {}));
/// div_in(&interval(16, 24), &interval(16, 24), 9); // the fraction is above the width
/// ```
///
/// # Panics
///
/// Panics unless the fraction frac is at most the width.
///
/// # Proved
///
/// ```text
/// requires { frac ≤ T.BITS }
/// ensures ends { option_map (ends_of T.value) result ≡ fitting T.SIGNED T.BITS (quotient_ends (ends_of T.value a.now) (ends_of T.value b.now) frac) }
/// ensures holds { IfSome result (λ i. HoldsQuotients (ends_of T.value a.now) (ends_of T.value b.now) frac (ends_of T.value i)) }
/// ```
///
/// Definitions: [`ends_of`], [`fitting`], [`quotient_ends`], [`HoldsQuotients`].
///
/// [`ends_of`]: crate::definitions::interval_ends
/// [`fitting`]: crate::definitions::interval_ends
/// [`quotient_ends`]: crate::definitions::interval_ends
/// [`HoldsQuotients`]: crate::definitions::interval_containment
#[track_caller]
#[must_use]
pub fn div_in<T: Word>(a: &Interval<T>, b: &Interval<T>, frac: u32) -> Option<Interval<T>> {
    assert!(
        frac <= T::BITS,
        "precondition: the fraction frac is at most the width"
    );
    if holds_zero(b) {
        return None;
    }
    between(
        least_quotient(a, b, frac).outcome(),
        greatest_quotient(a, b, frac).outcome(),
    )
}

/// Returns whether 0 is in `b`.
fn holds_zero<T: Word>(b: &Interval<T>) -> bool {
    is_at_most(b.lo(), T::ZERO) && is_at_most(T::ZERO, b.hi())
}

/// Returns the least corner, rounded down.
fn least_quotient<T: Word>(a: &Interval<T>, b: &Interval<T>, frac: u32) -> SignedMagnitude {
    let x = either(b.lo().is_below_zero(), a.hi(), a.lo());
    let y = either(x.is_below_zero(), b.lo(), b.hi());
    corner(x, y, frac, Outward::Down)
}

/// Returns the greatest corner, rounded up.
fn greatest_quotient<T: Word>(a: &Interval<T>, b: &Interval<T>, frac: u32) -> SignedMagnitude {
    let x = either(b.lo().is_below_zero(), a.lo(), a.hi());
    let y = either(x.is_below_zero(), b.hi(), b.lo());
    corner(x, y, frac, Outward::Up)
}

/// Returns the first end if `first`, and otherwise the second.
#[inline]
fn either<T: RawWord>(first: bool, x: T, y: T) -> T {
    if first { x } else { y }
}

/// Returns the corner of two ends, `x 2^frac / y`, rounded in that direction.
fn corner<T: RawWord>(x: T, y: T, frac: u32, way: Outward) -> SignedMagnitude {
    SignedMagnitude::of(x)
        .scaled(frac)
        .over(SignedMagnitude::of(y), way)
}
