// Made by `make package` of crates/fixed_table/src/lib.rt, which is proved: changes go there.

//! Functions by tables of their values, with linear interpolation.
//!
//! A [`Table`] has the values of a function at points that lie a power of two apart, such as those of a sensor's
//! calibration. Between two points, the value is that of the straight line, which is computed exactly and rounded down.
//! No function allocates.
//!
//! The Rust crate `fixed` does not have these items.

mod distance;
pub mod laws;
mod line;
mod table;

pub use line::interpolate_of;
pub use table::Table;
