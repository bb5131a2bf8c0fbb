// Made by `make package` of crates/fixed_face/src/dots.rt, which is proved: changes go there.

//! The dot product of two arrays.

use crate::block::dot_of;
use crate::convert::Castable;
use crate::face::answer::Code;
use crate::word::Outcome;

/// Returns the sum of the products of the numbers at the same index, over `2^frac` and rounded down once. Fails with
/// `FractionPastWidth` if `frac` is greater than the width, with `CountsDiffer` if one array is longer than the other,
/// and with `OutOfRange` only if the sum of some products at the front does not fit in an integer of 128 bits. Arrays
/// of words of up to 32 bits are too short for that.
#[inline]
pub fn dot<T: Castable>(a: &[T], b: &[T], frac: u32) -> Result<Outcome<T>, Code> {
    if frac > T::BITS {
        return Err(Code::FractionPastWidth);
    }
    if a.len() != b.len() {
        return Err(Code::CountsDiffer);
    }
    match dot_of(a, b, frac) {
        Some(outcome) => Ok(outcome),
        None => Err(Code::OutOfRange),
    }
}
