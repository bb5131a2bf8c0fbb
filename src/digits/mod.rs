// Made by `make package` of crates/fixed_digits/src/lib.rt, which is proved: changes go there.

//! Reading and writing the digits of natural numbers, without allocation.
//!
//! `decimal_before` and `decimal_into` write both the calculator's whole numbers and the decimals of fixed-point
//! numbers. A number that is read is capped: `2^64` stands for each number of `2^64` or more, which no word has as its
//! value. Contracts use the text of a natural number that [`fixed_word`](crate::word) defines.

mod numerals;
mod written;

pub(crate) use numerals::{is_decimal, natural_of, sign_of, value_of};
pub(crate) use written::{decimal_before, decimal_into};
