// Made by `make package` of crates/fixed_interval/src/lib.rt, which is proved: changes go there.

//! Intervals of fixed-point numbers. Their ends are rounded outward, to the nearest numbers of the format.
//!
//! Contracts see an [`Interval`] as the words of its ends. Each of the eight operations returns the interval of its
//! ends, or `None` if it has no result or an end does not fit. The result contains the operation's result for any
//! rational numbers in the operands. [`laws::inclusion_law`](laws::inclusion_law) states that narrower operands have a
//! narrower result, and [`laws::tightness_law`](laws::tightness_law) that no narrower interval of the format contains
//! all of these results. Only [`interval_run`], which runs a script, allocates. The Rust crate `fixed` does not have
//! these items.

#[cfg(feature = "runs")]
mod fault;
#[cfg(feature = "runs")]
mod header;
mod interval;
#[cfg(feature = "runs")]
mod interval_script;
pub mod laws;
#[cfg(feature = "runs")]
mod line;
#[cfg(feature = "runs")]
mod op;
mod products;
mod quotients;
mod roots;
mod signed_magnitude;
mod signs;
mod squares;
mod sums;

#[cfg(feature = "runs")]
pub use fault::IntervalFault;
pub use interval::Interval;
#[cfg(feature = "runs")]
pub use interval_script::interval_run;
pub use products::mul_in;
pub use quotients::div_in;
pub use roots::sqrt_in;
pub use signs::{abs_in, neg_in};
pub use squares::square_in;
pub use sums::{add_in, sub_in};
