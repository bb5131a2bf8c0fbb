// Made by `make package` of crates/fixed_block/src/dots.rt, which is proved: changes go there.

//! The sum of the products of two blocks, which is rounded once.

use crate::block::chunks::short_sum;
use crate::convert::Castable;
use crate::word::{Integer, Outcome, RawWord, Valued, outcome_of_magnitude};

/// Returns the sum plus the product of two numbers of 64 bits, or `None` if that does not fit.
#[inline(always)]
fn signed_added(sum: i128, x: i128, y: i128) -> Option<i128> {
    sum.checked_add(x * y)
}

/// Returns the same for unsigned numbers.
#[inline(always)]
fn unsigned_added(sum: u128, x: u64, y: u64) -> Option<u128> {
    let more = sum.wrapping_add(u128::from(x) * u128::from(y));
    if more < sum { None } else { Some(more) }
}

/// Returns the sum of the products of signed words of at most 32 bits.
#[inline(always)]
fn signed_middle_sum<T: Castable>(a: &[T], b: &[T]) -> i128 {
    let mut sum: i128 = 0;
    for at in 0..a.len() {
        sum += a[at].to_wide() * b[at].to_wide();
    }
    sum
}

/// Returns the sum of the products of unsigned words of at most 32 bits.
#[inline(always)]
fn unsigned_middle_sum<T: Castable>(a: &[T], b: &[T]) -> u128 {
    let mut sum: u128 = 0;
    for at in 0..a.len() {
        sum += u128::from(a[at].magnitude()) * u128::from(b[at].magnitude());
    }
    sum
}

/// Returns a number plus the sum of the products of signed words, or `None` if the number plus a partial sum does not
/// fit.
#[inline(always)]
fn signed_sum_from<T: Castable>(from: i128, a: &[T], b: &[T]) -> Option<i128> {
    let mut sum = from;
    for at in 0..a.len() {
        match signed_added(sum, a[at].to_wide(), b[at].to_wide()) {
            Some(more) => sum = more,
            None => return None,
        }
    }
    Some(sum)
}

/// Returns the sum of the products of signed words, or `None` if a partial sum does not fit. It takes four products at
/// a time, which saves about a fifth of the time.
#[inline(always)]
fn signed_sum<T: Castable>(a: &[T], b: &[T]) -> Option<i128> {
    let mut sum: i128 = 0;
    let mut at = 0;
    while a.len() - at >= 4 {
        match signed_sum_from(sum, &a[at..at + 4], &b[at..at + 4]) {
            Some(more) => sum = more,
            None => return None,
        }
        at += 4;
    }
    signed_sum_from(sum, &a[at..], &b[at..])
}

/// Returns the sum of the products of unsigned words, or `None` if a partial sum does not fit.
#[inline(always)]
fn unsigned_sum<T: Castable>(a: &[T], b: &[T]) -> Option<u128> {
    let mut sum: u128 = 0;
    for at in 0..a.len() {
        match unsigned_added(sum, a[at].magnitude(), b[at].magnitude()) {
            Some(more) => sum = more,
            None => return None,
        }
    }
    Some(sum)
}

/// Returns the outcome of a sum over `2^frac`, rounded down. Precondition: `frac` is at most the width.
#[inline(always)]
fn outcome_of_sum<T: Castable>(sum: i128, frac: u32) -> Outcome<T> {
    let moved = sum.floored(frac);
    outcome_of_magnitude(moved < 0, moved.unsigned_abs())
}

/// Returns the outcome of the sum of the products of the numbers at the same places, over `2^frac` and rounded down
/// once. Preconditions: the words have at most 32 bits, both blocks have the same length, and `frac` is at most the
/// width.
#[inline(always)]
fn middle_dot<T: Castable>(a: &[T], b: &[T], frac: u32) -> Outcome<T> {
    if T::SIGNED {
        outcome_of_sum(signed_middle_sum(a, b), frac)
    } else {
        outcome_of_magnitude(false, unsigned_middle_sum(a, b).floored(frac))
    }
}

/// Returns the outcome of the sum of the products of the numbers at the same places, over `2^frac` and rounded down
/// once. Returns `None` only if a partial sum of the products does not fit in an integer of 128 bits, which is signed
/// if the words are. For words of up to 32 bits, every slice is too short for that. Preconditions: both blocks have the
/// same length, and `frac` is at most the width.
///
/// # Examples
///
/// ```
/// use zugyelmas::block::{
///     Abs, Add, Each, Mul, MulAdd, Neg, Pairs, Scale, checked_each, checked_pairs, dot_of, saturating_each,
///     saturating_pairs, wrapping_each, wrapping_pairs,
/// };
/// use zugyelmas::word::Side;
///
/// // 1.5 * 0.5 - 2.5
/// let found = dot_of(&[24_i8, 40], &[8, -16], 4).map(|outcome| outcome.wrapped);
/// assert_eq!(found, Some(-28)); // -1.75
/// assert_eq!(dot_of(&[127_i8; 8], &[127; 8], 8).unwrap().side, Side::Above);
/// // the sum does not fit in 128 bits
/// assert!(dot_of(&[u64::MAX; 2], &[u64::MAX; 2], 64).is_none());
/// ```
///
/// ```should_panic
/// # use zugyelmas::block::{
/// #     Abs, Add, Each, Mul, MulAdd, Neg, Pairs, Scale, checked_each, checked_pairs, dot_of, saturating_each,
/// #     saturating_pairs, wrapping_each, wrapping_pairs,
/// # };
/// # use zugyelmas::word::Side;
/// # std::panic::set_hook(Box::new(|_| {}));
/// dot_of(&[16_i8, 32], &[1], 4); // the lengths differ
/// ```
///
/// ```should_panic
/// # use zugyelmas::block::{
/// #     Abs, Add, Each, Mul, MulAdd, Neg, Pairs, Scale, checked_each, checked_pairs, dot_of, saturating_each,
/// #     saturating_pairs, wrapping_each, wrapping_pairs,
/// # };
/// # use zugyelmas::word::Side;
/// # std::panic::set_hook(Box::new(|_| {}));
/// dot_of(&[16_i8], &[1], 9); // the fraction is above the width
/// ```
///
/// # Panics
///
/// Panics unless both slices have the same length, and the fraction frac is at most the width.
///
/// # Proved
///
/// ```text
/// requires lengths { length a.now ≡ length b.now }
/// requires frac { frac ≤ T.BITS }
/// ensures dot { IfSome result (λ outcome. StandsFor T.value T.SIGNED T.BITS
///     (exact_dot (map T.value a.now) (map T.value b.now) frac) outcome) }
/// ensures none { IsNone result → SumsFit T.SIGNED (map T.value a.now) (map T.value b.now) → ⊥ }
/// ```
///
/// Definitions: [`SumsFit`], [`exact_dot`].
///
/// [`SumsFit`]: crate::definitions::block_dots
/// [`exact_dot`]: crate::definitions::block_dots
#[track_caller]
#[must_use]
pub fn dot_of<T: Castable>(a: &[T], b: &[T], frac: u32) -> Option<Outcome<T>> {
    assert!(
        a.len() == b.len(),
        "precondition: both slices have the same length"
    );
    assert!(
        frac <= T::BITS,
        "precondition: the fraction frac is at most the width"
    );
    if T::BITS < 32 {
        Some(outcome_of_sum(short_sum(a, b), frac))
    } else if T::BITS == 32 {
        Some(middle_dot(a, b, frac))
    } else if T::SIGNED {
        match signed_sum(a, b) {
            Some(sum) => Some(outcome_of_sum(sum, frac)),
            None => None,
        }
    } else {
        match unsigned_sum(a, b) {
            Some(sum) => Some(outcome_of_magnitude(false, sum.floored(frac))),
            None => None,
        }
    }
}
