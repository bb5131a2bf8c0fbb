// Made by `make package` of crates/fixed_filter/src/block.rt, which is proved: changes go there.

//! Filters over blocks of samples.

use crate::filter::accumulation::output_of_past;
use crate::filter::headroom::untested_places;
use crate::filter::overflow::BlockOverflow;
use crate::filter::reply::Reply;
use crate::filter::sample::Sample;
use crate::filter::samples::put_in_front;
use crate::filter::shape::Shape;
use crate::filter::window::{output_of_window, wrapped_sum_of_window};
use crate::word::{RawWord, Word};

/// Filters a block of samples, the oldest first, and writes the output after each sample. For each sample this does the
/// same as [`put_in_front`](crate::filter::put_in_front) and [`output_of`](crate::filter::output_of): `past` takes the sample, and
/// keeps the newest samples, the newest first. Taps are in units of `2^-coef_frac`, samples of `2^-sample_frac`, and
/// outputs of `2^-out_frac`. If an output does not fit, this fails with the indices of its sample and of the first tap
/// whose partial sum does not fit. Then `past` has taken that sample and those before it, and the outputs from that
/// sample on are unchanged. Without taps, each output is 0. Preconditions: there are as many past samples as taps, and
/// as many outputs as samples; each number of fraction bits is at most the width.
///
/// # Examples
///
/// ```
/// use zugyelmas::filter::{BlockOverflow, Shape, filter_block};
/// let shape = Shape { out_frac: 4, coef_frac: 6, sample_frac: 4 };
///
/// // The mean of a sample and the one before it: 2 before 1, and 3 before 2.
/// let (mut past, mut output) = ([16_i8, 0], [0; 2]);
/// assert_eq!(filter_block(&shape, &[32, 32], &mut past, &[32, 48], &mut output), Ok(()));
/// assert_eq!((output, past), ([24, 40], [48, 32])); // 1.5 and 2.5
/// // 1.5 * 6 does not fit: the past has the sample, and its output is unchanged.
/// let stop = filter_block(&shape, &[96, 0], &mut past, &[16, 96, 16], &mut [0; 3]);
/// assert_eq!((stop, past), (Err(BlockOverflow { sample: 1, tap: 0 }), [96, 16]));
/// ```
///
/// ```should_panic
/// # use zugyelmas::filter::{BlockOverflow, Shape, filter_block};
/// # let shape = Shape { out_frac: 4, coef_frac: 6, sample_frac: 4 };
/// # std::panic::set_hook(Box::new(|_| {}));
/// // two lengths
/// let _ = filter_block(&shape, &[32, 32], &mut [0; 2], &[32], &mut [0; 2]);
/// ```
///
/// # Panics
///
/// Panics unless each fraction is at most the width, and both slices have the same length, and both slices have the same length.
///
/// # Proved
///
/// ```text
/// requires shape { IsShape T.BITS shape.now }
/// requires lengths { length taps.now ≡ length past.old }
/// requires room { length input.now ≡ length output.old }
/// ensures outputs { let reply = reply_to T.value T.value T.SIGNED T.BITS (places_of shape.now) taps.now
///     in AreReplies reply T.value past.old input.now output.new (outputs_of (length input.now) result) }
/// ensures unchanged { let done = outputs_of (length input.now) result
///     in drop done output.new ≡ drop done output.old }
/// ensures past { past.new ≡ past_after past.old (take (taken_of (length input.now) result) input.now) }
/// ensures stop { let reply = reply_to T.value T.value T.SIGNED T.BITS (places_of shape.now) taps.now
///     in IfErr result (StopsAt reply past.old input.now) }
/// ```
///
/// Definitions: [`IsShape`], [`places_of`], [`AreReplies`], [`StopsAt`], [`outputs_of`], [`past_after`], [`reply_to`], [`taken_of`].
///
/// [`IsShape`]: crate::definitions::filter_banks
/// [`places_of`]: crate::definitions::filter_banks
/// [`AreReplies`]: crate::definitions::filter_blocks
/// [`StopsAt`]: crate::definitions::filter_blocks
/// [`outputs_of`]: crate::definitions::filter_blocks
/// [`past_after`]: crate::definitions::filter_blocks
/// [`reply_to`]: crate::definitions::filter_blocks
/// [`taken_of`]: crate::definitions::filter_blocks
#[track_caller]
pub fn filter_block<T: Word>(
    shape: &Shape,
    taps: &[T],
    past: &mut [T],
    input: &[T],
    output: &mut [T],
) -> Result<(), BlockOverflow> {
    assert!(
        shape.out_frac.max(shape.coef_frac).max(shape.sample_frac) <= T::BITS,
        "precondition: each fraction is at most the width"
    );
    assert!(
        taps.len() == past.len(),
        "precondition: both slices have the same length"
    );
    assert!(
        input.len() == output.len(),
        "precondition: both slices have the same length"
    );
    block(shape, taps, past, input, output)
}

/// Does the same as `filter_block`, over types that hold the words. Preconditions: those of `filter_block`.
#[inline]
pub(crate) fn block<T: Word, A: Sample<T>, B: Sample<T>, C: Sample<T>>(
    shape: &Shape,
    taps: &[A],
    past: &mut [B],
    input: &[B],
    output: &mut [C],
) -> Result<(), BlockOverflow> {
    let result = outputs(shape, taps, past, input, output);
    let count = taken(&result, input.len());
    keep_newest(&input[..count], past);
    result
}

/// Returns how many samples of a block of `count` samples were taken. Precondition: the sample of an error is below
/// `count`.
fn taken(end: &Result<(), BlockOverflow>, count: usize) -> usize {
    match *end {
        Ok(()) => count,
        Err(stop) => stop.sample + 1,
    }
}

/// Writes the outputs of a block, as `block` does. But `past` takes only the first samples, as many as it has room for.
fn outputs<T: Word, A: Sample<T>, B: Sample<T>, C: Sample<T>>(
    shape: &Shape,
    taps: &[A],
    past: &mut [B],
    input: &[B],
    output: &mut [C],
) -> Result<(), BlockOverflow> {
    let untested = untested_places(shape, taps, input);
    for i in 0..input.len() {
        match output_at(shape, untested, taps, past, input, i) {
            Reply::Value(word) => output[i] = C::from_word(word),
            Reply::Overflow(tap) => return Err(BlockOverflow { sample: i, tap }),
        }
    }
    Ok(())
}

/// Returns the output after sample `i` of a block. If `i` is below the number of taps, `past` takes the sample, and the
/// output is that of the taps and `past`. Otherwise the taps reach only samples of the block, and `past` is unchanged;
/// no partial sum is tested where `untested` is that of the block. Preconditions: `i` is below the number of samples,
/// there are as many past samples as taps, and each number of fraction bits is at most the width.
#[inline]
fn output_at<T: Word, A: Sample<T>, B: Sample<T>>(
    shape: &Shape,
    untested: Option<u32>,
    taps: &[A],
    past: &mut [B],
    input: &[B],
    i: usize,
) -> Reply<T> {
    if i < taps.len() {
        step(shape, taps, past, input[i])
    } else {
        let window = &input[i + 1 - taps.len()..i + 1];
        match untested {
            Some(down) => Reply::Value(wrapped_sum_of_window(down, taps, window)),
            None => output_of_window(shape, taps, window),
        }
    }
}

/// Puts a sample in front of the past samples, drops the oldest one, and returns the output. Preconditions: there is a
/// tap, there are as many past samples as taps, and each number of fraction bits is at most the width.
#[inline]
pub(crate) fn step<T: Word, A: Sample<T>, B: Sample<T>>(
    shape: &Shape,
    taps: &[A],
    past: &mut [B],
    sample: B,
) -> Reply<T> {
    put_in_front(sample, past);
    output_of_past(shape, taps, past)
}

/// Replaces the past samples by the newest of these samples, the newest first, if there are more of these than past
/// samples. Otherwise `past` is unchanged.
fn keep_newest<B: Copy>(samples: &[B], past: &mut [B]) {
    if past.len() < samples.len() {
        past.copy_from_slice(&samples[samples.len() - past.len()..]);
        past.reverse();
    }
}
