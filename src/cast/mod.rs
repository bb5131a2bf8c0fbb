// Made by `make package` of crates/fixed_cast/src/lib.rt, which is proved: changes go there.

//! Typed calls across formats: conversions, comparisons, products in a third format, and rounding to whole numbers.
//!
//! A conversion takes a [`Source`] and returns a [`Numeric`]: a number of any format, or an integer, which is a
//! number without fraction bits. The calls are those of the same names of the Rust crate `fixed`, unless a comment
//! says that it does not have the call. No function allocates.

mod beside;
mod floats;
mod from_num;
mod mul_into;
mod numeric;
mod order;
mod policies;
mod source;
mod target;
mod to_num;
mod to_whole;
mod truth;

pub use crate::convert::Castable;
pub use floats::ToFloat;
pub use from_num::FromNum;
pub use mul_into::MulInto;
pub use numeric::Numeric;
pub use order::Order;
pub use source::Source;
pub use target::Target;
pub use to_num::ToNum;
pub use to_whole::ToWhole;
