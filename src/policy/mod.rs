// Made by `make package` of crates/fixed_policy/src/lib.rt, which is proved: changes go there.

//! The checked, overflowing and wrapping policies, which take every exact result.
//!
//! The functions `.._of` are re-exports of [`fixed_word`](crate::word); they read an [`Outcome`](crate::word::Outcome).
//! The traits have the typed calls of [`Fixed`](crate::num::Fixed), each named by its policy and its operation. The
//! calls are those of the same names of the Rust crate `fixed`, unless a comment says that it does not have the call.
//! No function allocates.

mod checked;
mod checked_products;
mod checked_rounded;
pub mod laws;
mod overflowing;
mod overflowing_products;
mod overflowing_rounded;
mod wrapping;
mod wrapping_products;
mod wrapping_rounded;

pub use crate::word::{checked_of, overflowing_of, wrapping_of};
pub use checked::{Checked, CheckedSigned, CheckedUnsigned};
pub use checked_products::{CheckedMulAdd, CheckedProducts};
pub use checked_rounded::CheckedRounded;
pub use overflowing::{Overflowing, OverflowingSigned, OverflowingUnsigned};
pub use overflowing_products::{OverflowingMulAdd, OverflowingProducts};
pub use overflowing_rounded::OverflowingRounded;
pub use wrapping::{Wrapping, WrappingSigned, WrappingUnsigned};
pub use wrapping_products::{WrappingMulAdd, WrappingProducts};
pub use wrapping_rounded::WrappingRounded;
