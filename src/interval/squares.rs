// Made by `make package` of crates/fixed_interval/src/squares.rt, which is proved: changes go there.

//! Squares of intervals.

use crate::interval::interval::{Interval, between};
use crate::interval::products::{ceiled, corner};
use crate::interval::signs::{farthest_from_zero, nearest_to_zero};
use crate::word::{Integer, Word, outcome_of_whole};

/// Returns the interval of the squares of the numbers in `a`, each bits over `2^frac`: from the least square, rounded
/// down, to the greatest, rounded up. Returns `None` if an end does not fit. If 0 is inside `a`, this is narrower than
/// the product of `a` with itself. Precondition: `frac` is at most the width.
///
/// # Examples
///
/// ```
/// use zugyelmas::{Interval, square_in};
/// let interval = |lo: i8, hi| Interval::new(lo, hi).expect("ends in order");
/// let ends = |interval: Interval<i8>| (interval.lo(), interval.hi());
///
/// // From -0.3125 to 0.1875: the squares are from 0 to 1.5625 units, which is rounded upward.
/// assert_eq!(square_in(&interval(-5, 3), 4).map(ends), Some((0, 2)));
/// assert_eq!(square_in(&interval(16, 64), 4).map(ends), None); // 16 does not fit
/// ```
///
/// ```should_panic
/// # use zugyelmas::{Interval, square_in};
/// # let interval = |lo: i8, hi| Interval::new(lo, hi).expect("ends in order");
/// # let ends = |interval: Interval<i8>| (interval.lo(), interval.hi());
/// # std::panic::set_hook(Box::new(|_| {}));
/// square_in(&interval(16, 24), 9); // the fraction is above the width
/// ```
///
/// # Panics
///
/// Panics unless the fraction frac is at most the width.
///
/// # Proved
///
/// ```text
/// requires { frac ≤ T.BITS }
/// ensures ends { option_map (ends_of T.value) result ≡ fitting T.SIGNED T.BITS (square_ends (ends_of T.value a.now) frac) }
/// ensures holds { IfSome result (λ i. HoldsSquares (ends_of T.value a.now) frac (ends_of T.value i)) }
/// ```
///
/// Definitions: [`ends_of`], [`fitting`], [`square_ends`], [`HoldsSquares`].
///
/// [`ends_of`]: crate::definitions::interval_ends
/// [`fitting`]: crate::definitions::interval_ends
/// [`square_ends`]: crate::definitions::interval_ends
/// [`HoldsSquares`]: crate::definitions::interval_containment
#[track_caller]
#[must_use]
pub fn square_in<T: Word>(a: &Interval<T>, frac: u32) -> Option<Interval<T>> {
    assert!(
        frac <= T::BITS,
        "precondition: the fraction frac is at most the width"
    );
    let (near, far) = (nearest_to_zero(a), farthest_from_zero(a));
    let low = corner(near, near).floored(frac);
    let high = ceiled::<T>(corner(far, far), frac);
    between(outcome_of_whole(low), outcome_of_whole(high))
}
