// Made by `make package` of crates/fixed_filter/src/window.rt, which is proved: changes go there.

//! The output of a filter inside a block.

use crate::filter::accumulation::{checked_add_prod, wrapped_add_prod};
use crate::filter::reply::Reply;
use crate::filter::sample::Sample;
use crate::filter::shape::Shape;
use crate::word::{RawWord, Word};

/// Returns the output of a filter with these taps after these samples, the newest last. It is the same as that of
/// [`output_of`](crate::filter::output_of) after the samples in reverse order. Preconditions: there are as many samples as
/// taps, and each number of fraction bits is at most the width.
#[inline]
pub(crate) fn output_of_window<T: Word, A: Sample<T>, B: Sample<T>>(
    shape: &Shape,
    taps: &[A],
    window: &[B],
) -> Reply<T> {
    let window = &window[..taps.len()];
    let mut sum = T::ZERO;
    for i in 0..taps.len() {
        let tap = taps[i].to_word();
        let back = taps.len() - 1 - i;
        let sample = window[back].to_word();
        match checked_add_prod(sum, tap, sample, shape) {
            Some(next) => sum = next,
            None => return Reply::Overflow(i),
        }
    }
    Reply::Value(sum)
}

/// Returns the sum of the products of these taps and samples, the newest last, each shifted right by `down` and rounded
/// down. The sum is wrapped, and no partial sum is tested, so that the loop is vectorised. Preconditions: there are as
/// many samples as taps, and `down` is at most the width.
#[inline]
pub(crate) fn wrapped_sum_of_window<T: Word, A: Sample<T>, B: Sample<T>>(
    down: u32,
    taps: &[A],
    window: &[B],
) -> T {
    let window = &window[..taps.len()];
    let mut sum = T::ZERO;
    for i in 0..taps.len() {
        let tap = taps[i].to_word();
        let back = taps.len() - 1 - i;
        let sample = window[back].to_word();
        sum = wrapped_add_prod(sum, tap, sample, down);
    }
    sum
}
