// Made by `make package` of crates/fixed_enclosure/src/lib.rt, which is proved: changes go there.

//! Enclosures: intervals of fixed-point numbers whose ends are rounded outward.
//!
//! An [`Enclosure`] contains every number from its low end to its high end. Its operations return the narrowest
//! enclosure of the format that contains each exact result. They use the calls of [`fixed_interval`](crate::interval) on
//! bits. No call allocates. The Rust crate `fixed` does not have these items.

mod comparing;
mod enclosure;
mod operations;
mod operators;
mod order;
mod sets;
mod width;

pub use enclosure::Enclosure;
