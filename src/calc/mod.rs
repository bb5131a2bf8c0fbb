// Made by `make package` of crates/fixed_calc/src/lib.rt, which is proved: changes go there.

//! The calculator. It runs a script on a register machine: each line takes the exact result of its operation, and its
//! policy makes the answer of it.
//!
//! [`calc_main`] does all that the program does. [`run`] runs a script in memory, and [`run_in`] runs it in a [`Room`]
//! that was made for it, without allocation. [`demo_script`] makes a large valid script. The Rust crate `fixed` does
//! not have these items.

mod command;
mod demo;
mod error_line;
pub mod laws;
mod reading;
mod short_text;
mod spelled;
mod status;
mod summary;
mod top;
mod writing;

pub use crate::machine::{Answer, Answers, Cause, Room, ScriptFault, run, run_in, step};
pub use crate::script::{
    Fractions, Header, Line, Literal, Op, Policy, Rounding, WordName, parse_header, parse_line,
};
pub use crate::stream::{
    Failed, MemorySink, MemorySource, Refusal, Sink, Source, SureSink, SureSource,
};
pub use demo::{Script, demo_script};
pub use spelled::{ExplicitFault, explicit};
pub use status::Status;
pub use top::calc_main;
