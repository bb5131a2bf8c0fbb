// Made by `make package` of crates/fixed_filter/src/fault.rt, which is proved: changes go there.

//! Why a script of filters has no output.

pub use crate::text::RunFault as FilterFault;
