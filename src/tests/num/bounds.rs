// Made by `make package` of crates/tests_num/src/bounds.rt, which is proved: changes go there.

//! Callers that know a number by its bound alone, each proved for every number that there is.

use crate::num::{Held, Number};
use crate::word::Valued;

/// The number that its own bits make.
pub fn read_back<N: Held>(number: N) -> N {
    N::from_bits(number.to_bits())
}

/// How many bytes the bits take. The width is one of four, each a multiple of 8.
pub fn bytes_taken<N: Number>() -> u32 {
    <N::Bits as Valued>::BITS / 8
}
