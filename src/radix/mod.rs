// Made by `make package` of crates/fixed_radix/src/lib.rt, which is proved: changes go there.

//! Numbers in the bases 2, 8 and 16, with a point: `InBase` prints a number with every option of a formatter.

mod bases;
mod digits;
mod display;
mod places;

pub use bases::Base;
pub use display::InBase;
