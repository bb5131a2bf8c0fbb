// Made by `make package` of crates/fixed_num/src/lib.rt, which is proved: changes go there.

//! Fixed-point numbers: words of bits with a fixed number of fraction bits.
//!
//! `Fixed<T, F>` is its bits times the unit `2^-F`: `98304` is `1.5` in `FixedI32<16>`. The width of a number is the
//! number of bits of its word T. The calls are those of the same names of the Rust crate `fixed`, unless a comment
//! says that it does not have the call. No call allocates.

mod format;

mod bit_calls;
mod bit_operators;
mod counted;
mod display;
mod from_decimal;
mod from_outcome;
mod integer_operators;
pub mod laws;
mod literal;
mod log_argument;
mod logarithms;
mod magnitudes;
mod operators;
mod sign_magnitude;
mod wide;

pub use format::{
    Constants, Fixed, FixedI8, FixedI16, FixedI32, FixedI64, FixedU8, FixedU16, FixedU32, FixedU64,
    Held, Number,
};
pub use from_decimal::FromDecimal;
pub use from_outcome::{
    checked_number, exact_number, overflowing_number, saturating_number, wrapping_number,
};
