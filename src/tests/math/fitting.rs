// Made by `make package` of crates/tests_math/src/fitting.rt, which is proved: changes go there.

//! A caller that knows that each logarithm fits.

use crate::elementary::laws::log2_law;
use crate::math::StrictMath;
use crate::natural::StrictNatural;
use crate::natural::laws::{exp_law, ln_law};
use crate::num::FixedI32;

/// The logarithm of a number with 16 fraction bits, in 32 bits, which lies from -16 to 15.
pub fn log2_with_16(number: FixedI32<16>) -> FixedI32<16> {
    log2_law();
    number.strict_log2()
}

/// The natural logarithm of a number with 16 fraction bits, in 32 bits, which lies from -12 to 11.
pub fn ln_with_16(number: FixedI32<16>) -> FixedI32<16> {
    ln_law();
    number.strict_ln()
}

/// e to the power of a number that is not above 0, which is 1 at most.
pub fn decay_with_16(number: FixedI32<16>) -> FixedI32<16> {
    exp_law();
    number.strict_exp()
}
