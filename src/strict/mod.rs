// Made by `make package` of crates/fixed_strict/src/lib.rt, which is proved: changes go there.

//! The saturating policy, and the strict policy, which requires that the exact result fits.
//!
//! The functions `.._of` are re-exports of [`fixed_word`](crate::word); they read an [`Outcome`](crate::word::Outcome).
//! The traits have the typed calls of [`Fixed`](crate::num::Fixed), each named by its policy and its operation, as in
//! the Rust crate `fixed`. The unwrapped forms return the same as the strict ones. No function allocates.

mod numbers;
mod saturating;
mod saturating_products;
mod saturating_rounded;
mod strict;
mod strict_products;
mod strict_rounded;
mod unwrapped;
mod unwrapped_products;
mod unwrapped_rounded;

pub use crate::word::{saturating_of, strict_of};
pub use saturating::{Saturating, SaturatingSigned, SaturatingUnsigned};
pub use saturating_products::{SaturatingMulAdd, SaturatingProducts};
pub use saturating_rounded::SaturatingRounded;
pub use strict::{Strict, StrictSigned, StrictUnsigned};
pub use strict_products::{StrictMulAdd, StrictProducts};
pub use strict_rounded::StrictRounded;
pub use unwrapped::{Unwrapped, UnwrappedSigned, UnwrappedUnsigned};
pub use unwrapped_products::{UnwrappedMulAdd, UnwrappedProducts};
pub use unwrapped_rounded::UnwrappedRounded;
