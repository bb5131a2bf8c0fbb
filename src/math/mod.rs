// Made by `make package` of crates/fixed_math/src/lib.rt, which is proved: changes go there.

//! Elementary functions as methods of [`Fixed`](crate::num::Fixed). The name of each call is its policy and its
//! operation.
//!
//! Results are in units of `2^-F`. No call allocates.

mod checked;
mod numbers;
mod overflowing;
mod saturating;
mod strict;
mod unwrapped;
mod wrapping;

pub use checked::CheckedMath;
pub use overflowing::OverflowingMath;
pub use saturating::SaturatingMath;
pub use strict::StrictMath;
pub use unwrapped::UnwrappedMath;
pub use wrapping::WrappingMath;
