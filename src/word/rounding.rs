// Made by `make package` of crates/fixed_word/src/rounding.rt, which is proved: changes go there.

//! Named roundings.

/// How a number between two multiples of the unit is rounded.
#[derive(Clone, Copy, PartialEq, Eq, Hash, Debug)]
pub enum Rounding {
    /// Down, toward negative infinity.
    Down,
    /// Toward zero.
    Zero,
    /// To the nearest multiple, ties to even.
    Even,
}
