// Made by `make package` of crates/fixed_natural/src/lib.rt, which is proved: changes go there.

//! Logarithms to the bases e and 10, and powers, each rounded down within a proved bound.
//!
//! Each function `.._of` computes on bits, in units of `2^-frac`. It returns an [`Outcome`](crate::word::Outcome): the
//! wrapped result, and whether the result fits or is above or below the range. The methods of
//! [`Fixed`](crate::num::Fixed) are named by their policy and their operation. No function allocates.

mod checked;
mod exponentials;
pub mod laws;
mod logarithms;
mod numbers;
mod overflowing;
mod powers;
mod saturating;
mod scaling;
mod strict;
mod unwrapped;
mod wrapping;

pub use checked::CheckedNatural;
pub use exponentials::exp_of;
pub use logarithms::{ln_of, log10_of};
pub use overflowing::OverflowingNatural;
pub use powers::pow_of;
pub use saturating::SaturatingNatural;
pub use strict::StrictNatural;
pub use unwrapped::UnwrappedNatural;
pub use wrapping::WrappingNatural;
