// Made by `make package` of crates/fixed_poly/src/fault.rt, which is proved: changes go there.

//! Why a script of polynomials has no output.

pub use crate::text::RunFault as PolyFault;
