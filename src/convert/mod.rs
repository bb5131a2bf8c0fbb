// Made by `make package` of crates/fixed_convert/src/lib.rt, which is proved: changes go there.

//! Conversions and comparisons across formats, and rounding to whole numbers, on bits. The numbers of fraction bits
//! are arguments, known only at run time.
//!
//! A number is a word and a number of fraction bits: a conversion returns `a / 2^from` in units of `2^-to`. An
//! integer is a number without fraction bits. Each function `.._of` returns an [`Outcome`](crate::word::Outcome) that
//! stands for the exact result. No function allocates.
//!
//! Words of each sign and width are converted to an integer of 128 bits. rustc removes the bits that the result does
//! not need: a conversion becomes a sign extension, a shift and a test. The Rust crate `fixed` does not have these
//! functions.

mod castable;
mod compare;
mod convert;
mod fitting;
pub mod laws;
mod long_products;
mod moved;
mod multiples;
mod products;
mod quotients;
mod whole_numbers;

pub use castable::Castable;
pub use compare::compare_of;
pub use convert::{convert_of, convert_round_of, saturating_convert_of};
pub use products::mul_into_of;
pub use whole_numbers::{ceil_of, floor_of, frac_of, round_of, round_ties_even_of};
