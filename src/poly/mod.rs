// Made by `make package` of crates/fixed_poly/src/lib.rt, which is proved: changes go there.

//! Polynomials by Horner's rule, with a proved bound on their rounding.
//!
//! The lowest coefficient is the first: `c_0 .. c_k`. Each step multiplies by the point, rounds the product down, and
//! adds the next lower coefficient. If the value of a step does not fit, the reply names the step.
//! [`laws::bound_law`](laws::bound_law) bounds how far a value lies below the exact one. Only [`poly_run`], which runs
//! a script, allocates.
//!
//! The Rust crate `fixed` does not have these items.

mod evaluation;
#[cfg(feature = "runs")]
mod fault;
#[cfg(feature = "runs")]
mod header;
pub mod laws;
mod overflow;
#[cfg(feature = "runs")]
mod poly_script;
mod reply;
mod typed;

pub use evaluation::horner_of;
#[cfg(feature = "runs")]
pub use fault::PolyFault;
pub use overflow::StepOverflow;
#[cfg(feature = "runs")]
pub use poly_script::poly_run;
pub use reply::PolyReply;
pub use typed::horner;
