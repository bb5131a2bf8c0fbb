// Made by `make package` of crates/fixed_block/src/lib.rt, which is proved: changes go there.

//! Operations on whole blocks of numbers, in place. No function allocates.
//!
//! A block is a slice of words of numbers with the same number of fraction bits. An operation has an exact result for
//! each element, and each policy has its loop. The saturating loop and the wrapping loop write every element, and the
//! checked loop stops at the first element whose exact result does not fit.
//!
//! The Rust crate `fixed` does not have these items.

mod chunks;
mod dots;
mod each;
mod operations;
mod pairs;

pub use dots::dot_of;
pub use each::{Each, checked_each, saturating_each, wrapping_each};
pub use operations::{Abs, Add, Convert, Dist, Mul, MulAdd, MulInt, Neg, Raise, Scale, Sub};
pub use pairs::{Pairs, checked_pairs, saturating_pairs, wrapping_pairs};
