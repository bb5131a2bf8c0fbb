// Made by `make package` of crates/fixed_filter/src/accumulation.rt, which is proved: changes go there.

//! The sum of the products of taps and samples.

use crate::filter::reply::Reply;
use crate::filter::sample::Sample;
use crate::filter::shape::Shape;
use crate::kernel::{add_prod_of, mul_add_of};
use crate::word::{RawWord, Word, checked_of};

/// Returns the sum plus the product of a tap and a sample, which is rounded down, or `None` if that does not fit. If
/// the product is shifted right by at most the width, as most products are, one shift is enough. Precondition: each
/// number of fraction bits is at most the width.
#[inline]
pub(crate) fn checked_add_prod<T: Word>(sum: T, tap: T, sample: T, shape: &Shape) -> Option<T> {
    let down = shape.coef_frac + shape.sample_frac;
    if shape.out_frac <= down && down - shape.out_frac <= T::BITS {
        checked_of(mul_add_of(tap, sample, sum, down - shape.out_frac))
    } else {
        checked_of(add_prod_of(
            sum,
            tap,
            sample,
            shape.out_frac,
            shape.coef_frac,
            shape.sample_frac,
        ))
    }
}

/// Returns the output of a filter with these taps after these samples, the newest first: the sum of the products of
/// taps and samples, each rounded down. Taps are in units of `2^-coef_frac`, samples of `2^-sample_frac`, and outputs
/// of `2^-out_frac`. If a partial sum does not fit, the reply is `Overflow` with the index of the first such tap.
/// Without taps, the output is 0. Preconditions: there are as many samples as taps, and each number of fraction bits is
/// at most the width.
///
/// # Examples
///
/// ```
/// use zugyelmas::filter::{Reply, Shape, output_of};
/// let shape = Shape { out_frac: 4, coef_frac: 6, sample_frac: 4 };
///
/// // 0.5 * 3 + 0.25 * 2 is 2.
/// assert_eq!(output_of(&shape, &[32_i8, 16], &[48, 32]), Reply::Value(32));
/// // 1.5 * 5 + 1.5 * 5 does not fit: the sum leaves the word at the second tap.
/// assert_eq!(output_of(&shape, &[96_i8, 96], &[80, 80]), Reply::Overflow(1));
/// ```
///
/// ```should_panic
/// # use zugyelmas::filter::{Reply, Shape, output_of};
/// # let shape = Shape { out_frac: 4, coef_frac: 6, sample_frac: 4 };
/// # std::panic::set_hook(Box::new(|_| {}));
/// output_of(&shape, &[32_i8, 16], &[48]); // two lengths
/// ```
///
/// # Panics
///
/// Panics unless each fraction is at most the width, and both slices have the same length.
///
/// # Proved
///
/// ```text
/// requires shape { IsShape T.BITS shape.now }
/// requires lengths { length taps.now ≡ length past.now }
/// ensures { reply_map T.value result ≡ filter_reply T.SIGNED T.BITS
///     (places_of shape.now) (pairs T.value T.value taps.now past.now) }
/// ```
///
/// Definitions: [`pairs`], [`filter_reply`], [`reply_map`], [`IsShape`], [`places_of`].
///
/// [`pairs`]: crate::definitions::policy_dot_product
/// [`filter_reply`]: crate::definitions::filter_replies
/// [`reply_map`]: crate::definitions::filter_replies
/// [`IsShape`]: crate::definitions::filter_banks
/// [`places_of`]: crate::definitions::filter_banks
#[track_caller]
#[must_use]
pub fn output_of<T: Word>(shape: &Shape, taps: &[T], past: &[T]) -> Reply<T> {
    assert!(
        shape.out_frac.max(shape.coef_frac).max(shape.sample_frac) <= T::BITS,
        "precondition: each fraction is at most the width"
    );
    assert!(
        taps.len() == past.len(),
        "precondition: both slices have the same length"
    );
    output_of_past(shape, taps, past)
}

/// Returns the same as `output_of`, from types that hold the words. Preconditions: those of `output_of`.
#[inline]
pub(crate) fn output_of_past<T: Word, A: Sample<T>, B: Sample<T>>(
    shape: &Shape,
    taps: &[A],
    past: &[B],
) -> Reply<T> {
    // One check of the length here spares one at each tap.
    let past = &past[..taps.len()];
    let mut sum = T::ZERO;
    for i in 0..taps.len() {
        let tap = taps[i].to_word();
        let sample = past[i].to_word();
        match checked_add_prod(sum, tap, sample, shape) {
            Some(next) => sum = next,
            None => return Reply::Overflow(i),
        }
    }
    Reply::Value(sum)
}

/// Returns the sum of the products of these taps and samples, the newest first, each shifted right by `down` and rounded
/// down. The sum is wrapped, and no partial sum is tested, so that the loop is vectorised. Preconditions: there are as
/// many samples as taps, and `down` is at most the width.
#[inline]
pub(crate) fn wrapped_sum_of_past<T: Word>(down: u32, taps: &[T], past: &[T]) -> T {
    let past = &past[..taps.len()];
    let mut sum = T::ZERO;
    for i in 0..taps.len() {
        sum = wrapped_add_prod(sum, taps[i], past[i], down);
    }
    sum
}

/// Returns the sum plus the product of a tap and a sample, which is shifted right by `down` and rounded down, wrapped.
/// Precondition: `down` is at most the width.
#[inline]
pub(crate) fn wrapped_add_prod<T: Word>(sum: T, tap: T, sample: T, down: u32) -> T {
    mul_add_of(tap, sample, sum, down).wrapped
}
