// Made by `make package` of crates/fixed_script/src/lib.rt, which is proved: changes go there.

//! The text of scripts: reading names of words, policies, operations and roundings, lines and headers.
//!
//! [`parse_line`] and [`parse_header`] read a piece without its newline. Their contracts state which line or header has
//! the piece as its text, and that none has if they return `None`. `2^64` stands for each number of `2^64` or more. The
//! Rust crate `fixed` does not have these functions.

mod header;
pub mod laws;
mod line;
mod names;
mod piece;
mod registers;
mod taking;

pub use crate::text::{Decimal as Literal, WordName};
pub use crate::word::Rounding;
pub use header::{Fractions, Header, parse_header};
pub use line::{Arity, Line, arity_of, parse_line, takes_rounding};
pub use names::{Op, Policy, default_rounding};
pub use piece::{header_of_piece, line_of_piece};
