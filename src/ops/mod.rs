// Made by `make package` of crates/fixed_ops/src/lib.rt, which is proved: changes go there.

//! Operations of fixed-point numbers by their plain names, and sums and products of slices.
//!
//! Each call returns the exact result. Precondition: there is one, and it fits. The Rust crate `fixed` has calls with
//! the same names. The operators between numbers are in [`fixed_num`](crate::num). No call allocates.

pub mod laws;
mod plain;
mod plain_products;
mod sums;

pub use plain::{Plain, PlainSigned, PlainUnsigned};
pub use plain_products::{PlainMulAdd, PlainProducts};
pub use sums::{product, sum};
