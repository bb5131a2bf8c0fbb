// Made by `make package` of crates/fixed_interval/src/products.rt, which is proved: changes go there.

//! Products of intervals.

use crate::interval::interval::{Interval, between};
use crate::word::{Arithmetic, Integer, RawWord, Word, outcome_of_whole};

/// Returns the interval of the products of a number in `a` and one in `b`, each bits over `2^frac`: from the least
/// product of two ends, rounded down, to the greatest, rounded up. Returns `None` if an end does not fit. Precondition:
/// `frac` is at most the width.
///
/// # Examples
///
/// ```
/// use zugyelmas::{Interval, mul_in};
/// let interval = |lo: i8, hi| Interval::new(lo, hi).expect("ends in order");
/// let ends = |interval: Interval<i8>| (interval.lo(), interval.hi());
///
/// // From 1 to 1.5, by -2 to 3: from -3 to 4.5.
/// assert_eq!(mul_in(&interval(16, 24), &interval(-32, 48), 4).map(ends), Some((-48, 72)));
/// // 0.3125 by 0.3125 is 1.5625 units, which is rounded outward.
/// assert_eq!(mul_in(&interval(5, 5), &interval(5, 5), 4).map(ends), Some((1, 2)));
/// // 8 does not fit
/// assert_eq!(mul_in(&interval(16, 64), &interval(32, 32), 4).map(ends), None);
/// ```
///
/// ```should_panic
/// # use zugyelmas::{Interval, mul_in};
/// # let interval = |lo: i8, hi| Interval::new(lo, hi).expect("ends in order");
/// # let ends = |interval: Interval<i8>| (interval.lo(), interval.hi());
/// # std::panic::set_hook(Box::new(|_| {}));
/// mul_in(&interval(16, 24), &interval(16, 24), 9); // the fraction is above the width
/// ```
///
/// # Panics
///
/// Panics unless the fraction frac is at most the width.
///
/// # Proved
///
/// ```text
/// requires { frac ≤ T.BITS }
/// ensures ends { option_map (ends_of T.value) result ≡ fitting T.SIGNED T.BITS (product_ends (ends_of T.value a.now) (ends_of T.value b.now) frac) }
/// ensures holds { IfSome result (λ i. HoldsProducts (ends_of T.value a.now) (ends_of T.value b.now) frac (ends_of T.value i)) }
/// ```
///
/// Definitions: [`ends_of`], [`fitting`], [`product_ends`], [`HoldsProducts`].
///
/// [`ends_of`]: crate::definitions::interval_ends
/// [`fitting`]: crate::definitions::interval_ends
/// [`product_ends`]: crate::definitions::interval_ends
/// [`HoldsProducts`]: crate::definitions::interval_containment
#[track_caller]
#[must_use]
pub fn mul_in<T: Word>(a: &Interval<T>, b: &Interval<T>, frac: u32) -> Option<Interval<T>> {
    assert!(
        frac <= T::BITS,
        "precondition: the fraction frac is at most the width"
    );
    let low = least_product(a, b).floored(frac);
    let high = ceiled::<T>(greatest_product(a, b), frac);
    between(outcome_of_whole(low), outcome_of_whole(high))
}

/// Returns the least of the four corners.
#[inline]
fn least_product<T: Word>(a: &Interval<T>, b: &Interval<T>) -> T::Whole {
    least(
        least(corner(a.lo(), b.lo()), corner(a.lo(), b.hi())),
        least(corner(a.hi(), b.lo()), corner(a.hi(), b.hi())),
    )
}

/// Returns the greatest of the four corners.
#[inline]
fn greatest_product<T: Word>(a: &Interval<T>, b: &Interval<T>) -> T::Whole {
    greatest(
        greatest(corner(a.lo(), b.lo()), corner(a.lo(), b.hi())),
        greatest(corner(a.hi(), b.lo()), corner(a.hi(), b.hi())),
    )
}

/// Returns the corner of two ends, which is their product.
#[inline]
pub(crate) fn corner<T: Arithmetic>(x: T, y: T) -> T::Whole {
    x.whole().times(y.whole())
}

/// Returns the lesser of two integers.
#[inline]
fn least<W: Integer>(x: W, y: W) -> W {
    if y.is_below(x) { y } else { x }
}

/// Returns the greater of two integers.
#[inline]
fn greatest<W: Integer>(x: W, y: W) -> W {
    if x.is_below(y) { y } else { x }
}

/// Returns a product over `2^frac`, rounded up.
#[inline]
pub(crate) fn ceiled<T: Arithmetic>(product: T::Whole, frac: u32) -> T::Whole {
    let floor = product.floored(frac);
    if floor.scaled(frac).equals(product) {
        floor
    } else {
        floor.plus(T::ONE.whole())
    }
}
