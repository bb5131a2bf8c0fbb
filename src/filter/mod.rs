// Made by `make package` of crates/fixed_filter/src/lib.rt, which is proved: changes go there.

//! Finite filters, alone and in banks, and second-order sections, with a proved bound on their rounding.
//!
//! A finite filter has taps and as many past samples. Its output is the sum of the products of taps and past samples,
//! each rounded down to the fraction bits of outputs. If a partial sum does not fit, the reply names the tap. A
//! second-order section adds the products of its five coefficients in the same way.
//! [`laws::output_law`](laws::output_law) bounds how far an output lies below the exact sum. Only `Bank::add_channel`
//! and [`filter_run`], which runs a script, allocate.
//!
//! The Rust crate `fixed` does not have these items.

mod accumulation;
#[cfg(feature = "runs")]
mod bank;
mod biquad;
mod block;
#[cfg(feature = "runs")]
mod channel;
#[cfg(feature = "runs")]
mod fault;
#[cfg(feature = "runs")]
mod filter_script;
mod fir;
#[cfg(feature = "runs")]
mod header;
mod headroom;
pub mod laws;
mod overflow;
mod reply;
mod sample;
mod samples;
mod shape;
mod window;

pub use accumulation::output_of;
#[cfg(feature = "runs")]
pub use bank::Bank;
pub use biquad::{Biquad, Section};
pub use block::filter_block;
#[cfg(feature = "runs")]
pub use fault::FilterFault;
#[cfg(feature = "runs")]
pub use filter_script::filter_run;
pub use fir::Fir;
pub use overflow::{BlockOverflow, TapOverflow};
pub use reply::Reply;
pub use samples::put_in_front;
pub use shape::Shape;
