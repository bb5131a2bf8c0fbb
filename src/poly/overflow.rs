// Made by `make package` of crates/fixed_poly/src/overflow.rt, which is proved: changes go there.

//! Why a polynomial has no value.

/// The value of a step of Horner's rule does not fit.
#[derive(Clone, Copy, Debug, PartialEq, Eq, Hash)]
pub struct StepOverflow {
    /// The first step whose value does not fit. A step is named by the index of the coefficient that it adds.
    pub step: usize,
}

impl core::fmt::Display for StepOverflow {
    fn fmt(&self, f: &mut core::fmt::Formatter<'_>) -> core::fmt::Result {
        match self {
            Self { step, .. } => write!(f, "overflow at coefficient {step}"),
        }
    }
}

impl core::error::Error for StepOverflow {}
