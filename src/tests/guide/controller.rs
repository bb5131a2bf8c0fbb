// Made by `make package` of crates/fixed_guide/src/controller.rt, which is proved: changes go there.

//! A step of a controller, which saturates and never wraps.

use crate::{FixedI16, SaturatingMulAdd};

/// An error, a bias or an output, in units of `2^-8`.
pub type Signal = FixedI16<8>;

/// A gain, in units of `2^-12`. It has more fraction bits than a signal.
pub type Gain = FixedI16<12>;

/// Returns the product of the error and the gain, rounded down, plus the bias. If that does not fit, returns the
/// nearest number that fits. The product alone may be out of range.
pub fn output(error: Signal, gain: Gain, bias: Signal) -> Signal {
    error.saturating_mul_add(gain, bias)
}
