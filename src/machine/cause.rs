// Made by `make package` of crates/fixed_machine/src/cause.rt, which is proved: changes go there.

//! Why a line, or a run, has no answer.

/// Why a line has no answer, with the number of the line. The header is line 1.
#[derive(Clone, Copy, Debug, PartialEq, Eq)]
pub enum Cause {
    /// The piece is not a header or a line, or its operation is not offered for the word and policy.
    Syntax(u64),
    /// A literal is not a value of the word, a number of fraction bits exceeds the width, or a register was not
    /// declared.
    OutOfRange(u64),
    /// Registers of the line that must have the same number of fraction bits do not.
    FractionMismatch(u64),
    /// A divisor, the operand of `recip`, or the second operand of `next_multiple_of` is 0, and the policy is not
    /// checked.
    ZeroDivisor(u64),
    /// The operand of `sqrt` is below 0, and the policy is not checked.
    NegativeRoot(u64),
    /// The policy is strict, and the exact result does not fit.
    Overflow(u64),
}

/// Why a run returns no answers.
#[derive(Debug, PartialEq, Eq)]
pub enum ScriptFault {
    /// The first cause of the script.
    Script(Cause),
    /// Memory ran out. No contract states when it does.
    Memory,
}

impl core::fmt::Display for ScriptFault {
    fn fmt(&self, f: &mut core::fmt::Formatter<'_>) -> core::fmt::Result {
        match self {
            Self::Script { .. } => write!(f, "a line has a cause"),
            Self::Memory { .. } => write!(f, "out of memory"),
        }
    }
}

impl core::error::Error for ScriptFault {}
