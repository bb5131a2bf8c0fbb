// Made by `make package` of crates/fixed_word/src/lib.rt, which is proved: changes go there.

//! Words: the integers of 8, 16, 32 and 64 bits that hold the bits of numbers.
//!
//! A word of n bits holds the integers from its `MIN` to its `MAX`. Calls whose exact result may not fit return an
//! [`Outcome`]: the wrapped word, and the side on which the exact result lies. The Rust crate `fixed` does not have
//! these items.

mod arithmetic;
mod digits;
mod integer;
pub mod laws;
mod ledger;
mod narrow;
mod outcome;
mod policies;
mod rounding;
mod word;
mod words;

pub use arithmetic::Arithmetic;
pub use digits::Digits;
pub use integer::Integer;
pub use ledger::{Count, Ledger, Silent, Steps};
pub use narrow::Narrow;
pub use outcome::{
    Outcome, Side, outcome_of, outcome_of_kept, outcome_of_magnitude, outcome_of_whole,
};
pub use policies::{
    checked_of, clamped_of, nearest_of, nearest_of_whole, overflowing_of, saturating_of, strict_of,
    wrapping_of,
};
pub use rounding::Rounding;
pub use word::{Ordered, RawWord, SignedWord, UnsignedWord, Valued, Word};
