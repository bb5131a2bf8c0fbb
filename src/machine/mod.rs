// Made by `make package` of crates/fixed_machine/src/lib.rt, which is proved: changes go there.

//! The register machine. Each line of a script takes the exact result of its operation, and its policy makes the answer
//! of it.
//!
//! [`run`] runs a script in memory, [`run_in`] runs it in a [`Room`] that was made for it, without allocation, and
//! [`step`] runs one line. The Rust crate `fixed` does not have these items.

mod answer;
mod buffer;
mod cause;
mod piece;
mod projected;
mod quick;
mod quick_names;
mod quick_step;
mod register;
mod room;
mod room_run;
mod rows;
mod stepping;

pub use answer::Answer;
pub use cause::{Cause, ScriptFault};
pub use room::{Answers, Room, step};
pub use room_run::{run, run_in};
