// Made by `make package` of crates/fixed_machine/src/register.rt, which is proved: changes go there.

//! Registers, as sign and magnitude.

/// The bits of a register, as sign and magnitude, and its number of fraction bits.
#[derive(Clone, Copy, Debug, PartialEq, Eq)]
pub(crate) struct Register {
    pub magnitude: u64,
    pub fraction: u32,
    pub below_zero: bool,
}

/// A number of at most 64 bits, as sign and magnitude.
#[derive(Clone, Copy, Debug, PartialEq, Eq)]
pub(crate) struct Signed {
    pub below_zero: bool,
    pub magnitude: u64,
}

/// The operands of a line. An operation takes the first ones.
#[derive(Clone, Copy, Debug, PartialEq, Eq)]
pub(crate) struct OperandRegisters {
    pub a: Register,
    pub b: Register,
    pub c: Register,
}

/// Returns the magnitude, or minus it if `below_zero`.
pub(crate) fn with_sign(below_zero: bool, magnitude: u64) -> i128 {
    let magnitude = magnitude as i128;
    if below_zero { -magnitude } else { magnitude }
}
