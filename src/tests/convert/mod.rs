// Made by `make package` of crates/tests_convert/src/lib.rt, which is proved: changes go there.

//! Tests of `fixed_convert`, `fixed_block`, `fixed_float` and `fixed_cast`: rows from the Rust crate's documentation,
//! ends of words, worked floats in and out, and each call at concrete types.

#[cfg(test)]
mod blocks;
#[cfg(test)]
mod incoming;
#[cfg(test)]
mod outgoing;
#[cfg(test)]
mod rows;
