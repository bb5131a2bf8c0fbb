// Made by `make package` of crates/fixed_bits/src/lib.rt, which is proved: changes go there.

//! Words as lists of bits and of bytes.
//!
//! The bit list of a word of n bits has n digits 0 or 1, the least significant first. The sum of `digit_i 2^i`
//! differs from the value by a multiple of `2^n`. The byte list is the same with n/8 digits from 0 to 255 in base
//! 256. No call allocates.

mod bit_word;
mod bytes;
pub mod laws;
mod pattern;

pub use bit_word::BitWord;
