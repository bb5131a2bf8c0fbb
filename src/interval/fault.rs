// Made by `make package` of crates/fixed_interval/src/fault.rt, which is proved: changes go there.

//! Why a script of intervals has no output.

pub use crate::text::RunFault as IntervalFault;
