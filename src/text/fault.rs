// Made by `make package` of crates/fixed_text/src/fault.rt, which is proved: changes go there.

//! Why a run stops.

/// Why a run refuses a piece.
#[derive(Clone, Copy, PartialEq, Eq, Debug)]
pub enum LineFault {
    /// The piece is malformed.
    Unformed,
    /// A number in the piece is out of range.
    Unfit,
    /// Memory ran out.
    Wanting,
}

/// Why there is no output. The number is that of the piece, from 1 on.
#[derive(Clone, Copy, PartialEq, Eq, Debug)]
pub enum RunFault {
    /// The piece is malformed.
    Syntax(u64),
    /// A number in the piece is out of range.
    OutOfRange(u64),
    /// Memory ran out. Contracts allow this for every script.
    Memory,
}

impl core::fmt::Display for RunFault {
    fn fmt(&self, f: &mut core::fmt::Formatter<'_>) -> core::fmt::Result {
        match self {
            Self::Syntax { 0: field, .. } => write!(f, "piece {0} is no header or no line", field),
            Self::OutOfRange { 0: field, .. } => {
                write!(f, "a number of piece {0} is out of range", field)
            }
            Self::Memory { .. } => write!(f, "out of memory"),
        }
    }
}

impl core::error::Error for RunFault {}
