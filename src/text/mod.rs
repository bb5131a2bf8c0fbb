// Made by `make package` of crates/fixed_text/src/lib.rt, which is proved: changes go there.

//! Text for the runs: cutting a script into pieces and a piece into tokens, reading and writing decimals, the bytes of
//! an output, and one loop over the pieces of a script.
//!
//! The Rust crate `fixed` does not have these functions. Contracts use the decimals and pieces that
//! [`fixed_word`](crate::word) defines.

#[cfg(any(feature = "calc", feature = "runs"))]
mod added;
mod decimal;
#[cfg(any(feature = "calc", feature = "runs"))]
mod fault;
pub mod laws;
mod names;
#[cfg(any(feature = "calc", feature = "runs"))]
mod numbers;
#[cfg(any(feature = "calc", feature = "runs"))]
mod output;
mod pieces;
#[cfg(any(feature = "calc", feature = "runs"))]
mod run;
mod tokens;

#[cfg(any(feature = "calc", feature = "runs"))]
pub(crate) use added::push_all;
pub use decimal::{Decimal, read_decimal, value_in};
#[cfg(any(feature = "calc", feature = "runs"))]
pub use fault::{LineFault, RunFault};
pub use names::{WordName, word_of};
#[cfg(any(feature = "calc", feature = "runs"))]
pub use numbers::{fitting, read_natural, read_numbered, read_only_number, read_word, read_words};
#[cfg(any(feature = "calc", feature = "runs"))]
pub use output::Output;
pub(crate) use pieces::{body_of, piece_end};
#[cfg(any(feature = "calc", feature = "runs"))]
pub use run::{InWord, Run, open, run_lines};
pub use tokens::{Tokens, cut};
