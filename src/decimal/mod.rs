// Made by `make package` of crates/fixed_decimal/src/lib.rt, which is proved: changes go there.

//! Decimal text: reading a number of any format with any rounding, and writing a number exactly, with a given number of
//! digits after the point, or with as few digits as read back as the number.
//!
//! A decimal is an optional sign and digits, at least one, with at most one point among them: `-12.5`, `+3`, `.5`,
//! `5.`. Its exact result in a format with f fraction bits is its number times `2^f`, rounded. Texts may have any
//! length, and each digit counts. No function allocates.

mod error;
mod halves;
pub mod laws;
mod layout;
mod literal;
mod numeral;
mod places;
mod reading;
mod tens;
mod writing;

pub use error::DecimalError;
pub use layout::pad_number;
pub(crate) use literal::{
    checked_signed_literal, checked_unsigned_literal, signed_literal, unsigned_literal,
};
pub use places::{exact_places, shortest_places};
pub use reading::{decimal_of, exact_decimal_of};
pub use writing::write_decimal;
