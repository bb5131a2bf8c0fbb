// Made by `make package` of crates/fixed_float/src/lib.rt, which is proved: changes go there.

//! Conversions between floats of IEEE 754 and fixed-point numbers, and comparisons of both.
//!
//! A finite float is exactly a number `±m 2^e`. Its exact result in a format with f fraction bits is `±m 2^(e + f)`,
//! rounded as named, or to the nearest, ties to even. NaNs and infinities have none. Each policy returns what it
//! returns for other operations. A number converts to the nearest float, ties to even. Comparisons with floats are
//! exact. No call allocates.

mod binary;
mod compare;
mod held;
mod incoming;
pub mod laws;
mod lowered;
mod near;
mod nearest;
mod outgoing;
mod packed;
mod parts;

pub use binary::Binary;
pub use compare::compare_float_of;
pub use held::saturating_float_of;
pub use incoming::{from_float_of, from_float_round_of};
pub use outgoing::to_float_of;
