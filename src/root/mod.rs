// Made by `make package` of crates/fixed_root/src/lib.rt, which is proved: changes go there.

//! Square roots.
//!
//! [`root`] finds one binary digit at a time, within a proved number of steps: it makes only the counted calls of
//! [`Digits`](crate::word::Digits), and uses no word of twice the width. [`root_of_word`], [`root_of_double`] and
//! [`scaled_root`] are faster, and count no steps. None of them allocates.

mod by_digit;
mod exact;
pub mod laws;
mod near;
mod whole;

pub use by_digit::root;
pub use whole::{root_of_double, root_of_word, scaled_root};
