// Made by `make package` of crates/fixed_filter/src/headroom.rt, which is proved: changes go there.

//! Filters whose partial sums fit, so that no tap needs a test.

use crate::filter::sample::Sample;
use crate::filter::shape::Shape;
use crate::word::{RawWord, Valued, Word};

/// Returns the places by which products move down to those of outputs, if no partial sum needs a test while the taps
/// reach only samples of this block: each partial sum then fits for every block whose greatest magnitude of a sample is
/// that of this one. Returns `None` if one may not fit, if products move up, or down by more than the width, or if the
/// block has no more samples than there are taps. Precondition: each number of fraction bits is at most the width.
pub(crate) fn untested_places<T: Word, A: Sample<T>, B: Sample<T>>(
    shape: &Shape,
    taps: &[A],
    samples: &[B],
) -> Option<u32> {
    if samples.len() <= taps.len() {
        return None;
    }
    places_with_room::<T>(shape, weight(taps), peak(samples), taps.len())
}

/// Returns by how many places products move down to those of outputs, if each partial sum of `count` taps fits, whose
/// magnitudes add up to `weight`, for all samples whose magnitudes are at most `peak`. Returns `None` if products move
/// up, or down by more than the width. Precondition: each number of fraction bits is at most the width.
pub(crate) fn places_with_room<T: Word>(
    shape: &Shape,
    weight: u128,
    peak: u64,
    count: usize,
) -> Option<u32> {
    let from = shape.coef_frac + shape.sample_frac;
    if from < shape.out_frac || T::BITS < from - shape.out_frac {
        return None;
    }
    let down = from - shape.out_frac;
    if has_room::<T>(down, weight, peak, count) {
        Some(down)
    } else {
        None
    }
}

/// Returns whether each partial sum of `count` taps fits, whose magnitudes add up to `weight`, for all samples whose
/// magnitudes are at most `peak`. Products are shifted right by `down`. Precondition: `down` is at most the width.
fn has_room<T: Word>(down: u32, weight: u128, peak: u64, count: usize) -> bool {
    if weight > u64::MAX as u128 {
        return false;
    }
    let reach = (weight * peak as u128) >> down;
    reach + most_roundings::<T>(count) as u128 <= T::MAX.magnitude() as u128
}

/// Returns by how many units at most so many products are rounded below 0: products of unsigned words are not.
fn most_roundings<T: RawWord>(products: usize) -> usize {
    if T::SIGNED { products } else { 0 }
}

/// Returns the sum of the magnitudes of taps.
pub(crate) fn weight<T: RawWord, A: Sample<T>>(taps: &[A]) -> u128 {
    let mut sum: u128 = 0;
    for i in 0..taps.len() {
        sum += taps[i].to_word().magnitude() as u128;
    }
    sum
}

/// Returns the greatest magnitude of samples, or 0 without samples.
fn peak<T: Word, B: Sample<T>>(samples: &[B]) -> u64 {
    let mut most: u64 = 0;
    for i in 0..samples.len() {
        let magnitude = samples[i].to_word().magnitude();
        if most < magnitude {
            most = magnitude;
        }
    }
    most
}
