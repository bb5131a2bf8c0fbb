// Made by `make package` of crates/fixed_filter/src/overflow.rt, which is proved: changes go there.

//! Why a filter has no output.

/// A partial sum of an output does not fit.
#[derive(Clone, Copy, Debug, PartialEq, Eq, Hash)]
pub struct TapOverflow {
    /// The index of the first tap whose partial sum does not fit.
    pub tap: usize,
}

/// A partial sum of an output of a block does not fit.
#[derive(Clone, Copy, Debug, PartialEq, Eq, Hash)]
pub struct BlockOverflow {
    /// The index in the block of the first sample whose output does not fit.
    pub sample: usize,
    /// The index of the first tap whose partial sum does not fit.
    pub tap: usize,
}

impl core::fmt::Display for TapOverflow {
    fn fmt(&self, f: &mut core::fmt::Formatter<'_>) -> core::fmt::Result {
        match self {
            Self { tap, .. } => write!(f, "overflow at tap {tap}"),
        }
    }
}

impl core::error::Error for TapOverflow {}

impl core::fmt::Display for BlockOverflow {
    fn fmt(&self, f: &mut core::fmt::Formatter<'_>) -> core::fmt::Result {
        match self {
            Self { sample, tap, .. } => write!(f, "overflow at sample {sample}, tap {tap}"),
        }
    }
}

impl core::error::Error for BlockOverflow {}
