// Made by `make package` of crates/fixed_guide/src/lib.rt, which is proved: changes go there.

//! The example programs of the docs. The contract of each is the property that it was written for.
//!
//! The Rust crate `fixed` does not have these programs.

pub mod controller;
pub mod filter;
pub mod generic;
pub mod invoice;
pub mod sine;
pub mod stock;
pub mod transfer;
