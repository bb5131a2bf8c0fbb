// Made by `make package` of crates/fixed_elementary/src/lib.rt, which is proved: changes go there.

//! Elementary functions of fixed-point numbers, on bits. The number of fraction bits is an argument, known only at run
//! time.
//!
//! Each function `.._of` returns an [`Outcome`](crate::word::Outcome): the wrapped result, and whether the result fits
//! or is above or below the range. Bits are in units of `2^-frac`. No function allocates.

mod digits;
pub(crate) mod exponentials;
mod factor_table;
mod factors;
mod first_powers;
mod last_powers;
pub mod laws;
mod lengths;
mod log_table;
pub(crate) mod logarithms;
mod mantissas;
mod powers_of_two;
mod reciprocals;
mod reductions;
mod roots;
pub(crate) mod wide;

pub use exponentials::exp2_of;
pub use lengths::hypot_of;
pub use logarithms::log2_of;
pub use reciprocals::recip_sqrt_of;
