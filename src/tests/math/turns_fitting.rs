// Made by `make package` of crates/tests_math/src/turns_fitting.rt, which is proved: changes go there.

//! Callers that know that each sine and each angle fits.

use crate::num::FixedI32;
use crate::turns::laws::{angle_law, cosine_law, radian_angle_law, radian_law, sine_law};
use crate::turns::{StrictRadians, StrictTurns, UnwrappedRadians, UnwrappedTurns};

/// The sine and the cosine of an angle in turns with 16 fraction bits, in 32 bits.
pub fn sine_and_cosine(angle: FixedI32<16>) -> (FixedI32<16>, FixedI32<16>) {
    sine_law();
    cosine_law();
    (angle.strict_sin_turns(), angle.unwrapped_cos_turns())
}

/// The sine and the cosine of an angle in radians with 16 fraction bits, in 32 bits.
pub fn sine_and_cosine_in_radians(angle: FixedI32<16>) -> (FixedI32<16>, FixedI32<16>) {
    radian_law();
    (angle.strict_sin(), angle.unwrapped_cos())
}

/// The angle of a point with 16 fraction bits, in 32 bits.
pub fn angle_of(y: FixedI32<16>, x: FixedI32<16>) -> FixedI32<16> {
    angle_law();
    y.strict_atan2_turns(x)
}

/// The angle of a point in radians with 16 fraction bits, in 32 bits, twice.
pub fn angle_in_radians(y: FixedI32<16>, x: FixedI32<16>) -> (FixedI32<16>, FixedI32<16>) {
    radian_angle_law();
    (y.strict_atan2(x), y.unwrapped_atan2(x))
}
