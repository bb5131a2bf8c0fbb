// Made by `make package` of crates/fixed_logs/src/lib.rt, which is proved: changes go there.

//! Logarithms of unsigned words, rounded down to integers, within a proved number of steps.
//!
//! The `int` calls read a word of n bits as an integer, and the `frac` calls read it as a fraction, the word over
//! `2^n`. Each call of [`Digits`](crate::word::Digits) is one step, and a logarithm takes at most `4 log2(n) + 4`
//! steps.

mod base;
mod exact;
pub mod laws;
mod squaring;
mod tens;

pub use base::Base;
pub use squaring::{frac_part, int_part};
pub use tens::{frac_log10_part, int_log10_part};
