// Made by `make package` of crates/fixed_face/src/arrays.rt, which is proved: changes go there.

//! A polynomial, and filters, on arrays of the caller.

use crate::face::answer::Code;
use crate::filter::{Reply, Shape, output_of, put_in_front};
use crate::poly::{PolyReply, horner_of};
use crate::word::Word;

/// Writes the value at `x` of the polynomial with these coefficients, the lowest first, and returns 0. All numbers are
/// in units of `2^-frac`. Each step, from the highest coefficient on, multiplies by `x`, rounds the product down, and
/// adds the coefficient before.
///
/// Fails with `FractionPastWidth` if `frac` is greater than the width, with `NoElement` if there is no coefficient, and
/// with `OutOfRange` if the value of a step does not fit: `step` is then the index of the coefficient that the first
/// such step adds.
#[inline]
pub fn horner<T: Word>(coefs: &[T], x: T, frac: u32, value: &mut T, step: &mut usize) -> i32 {
    if frac > T::BITS {
        return Code::FractionPastWidth.number();
    }
    if coefs.is_empty() {
        return Code::NoElement.number();
    }
    match horner_of(coefs, x, frac) {
        PolyReply::Value(found) => {
            *value = found;
            0
        }
        PolyReply::Overflow(place) => {
            *step = place;
            Code::OutOfRange.number()
        }
    }
}

/// Puts the sample in front of the past samples, which are ordered from the newest to the oldest, drops the oldest,
/// writes the output, and returns 0. The output is the sum of the products of taps and samples, each rounded down to
/// the fraction bits of the output. The shape has the numbers of fraction bits of the output, the taps and the samples.
///
/// Fails with `FractionPastWidth` if one of these numbers is greater than the width, with `NoElement` if there is no
/// tap, and with `CountsDiffer` if there are not as many past samples as taps: the past samples are then unchanged.
/// Fails with `OutOfRange` if a partial sum does not fit: `tap` is then the index of the first such tap, and the sample
/// is in front.
#[inline]
pub fn filter<T: Word>(
    taps: &[T],
    past: &mut [T],
    sample: T,
    shape: Shape,
    output: &mut T,
    tap: &mut usize,
) -> i32 {
    if shape.out_frac > T::BITS || shape.coef_frac > T::BITS || shape.sample_frac > T::BITS {
        return Code::FractionPastWidth.number();
    }
    if taps.is_empty() {
        return Code::NoElement.number();
    }
    if taps.len() != past.len() {
        return Code::CountsDiffer.number();
    }
    put_in_front(sample, past);
    match output_of(&shape, taps, past) {
        Reply::Value(found) => {
            *output = found;
            0
        }
        Reply::Overflow(place) => {
            *tap = place;
            Code::OutOfRange.number()
        }
    }
}

/// Filters a block of samples, the oldest first, writes the output after each, and returns 0: as many steps of
/// [`filter`].
///
/// Fails with `FractionPastWidth` if a number of fraction bits is greater than the width, with `NoElement` if there is
/// no tap, and with `CountsDiffer` if there are not as many past samples as taps, or not as many outputs as samples:
/// nothing is then written. Fails with `OutOfRange` if a partial sum does not fit: `sample` is then the index of the
/// first such sample, which is in front of the past samples, and `tap` the index of its first such tap. The outputs
/// from there on are unchanged.
#[inline]
pub fn filter_block<T: Word>(
    taps: &[T],
    past: &mut [T],
    input: &[T],
    output: &mut [T],
    shape: Shape,
    sample: &mut usize,
    tap: &mut usize,
) -> i32 {
    if shape.out_frac > T::BITS || shape.coef_frac > T::BITS || shape.sample_frac > T::BITS {
        return Code::FractionPastWidth.number();
    }
    if taps.is_empty() {
        return Code::NoElement.number();
    }
    if taps.len() != past.len() || input.len() != output.len() {
        return Code::CountsDiffer.number();
    }
    match crate::filter::filter_block(&shape, taps, past, input, output) {
        Ok(()) => 0,
        Err(stop) => {
            *sample = stop.sample;
            *tap = stop.tap;
            Code::OutOfRange.number()
        }
    }
}
