// Made by `make package` of crates/fixed_stream/src/lib.rt, which is proved: changes go there.

//! Sources and sinks: what a program reads from and writes to. Those in memory do not fail, or fail in the calls that
//! their creator lists. The Rust crate `fixed` does not have them.

mod copy;
mod memory;
mod outside;
mod sure;

pub use memory::{MemorySink, MemorySource};
pub use outside::{Failed, Refusal, Sink, Source};
pub use sure::{SureSink, SureSource};
