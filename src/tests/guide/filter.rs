// Made by `make package` of crates/fixed_guide/src/filter.rt, which is proved: changes go there.

//! A low-pass filter that never overshoots.

use crate::{FixedI32, Saturating, SaturatingProducts};

/// A level or a sample, in units of `2^-16`.
pub type Level = FixedI32<16>;

/// A gain, in units of `2^-30`. It has more fraction bits than a level.
pub type Gain = FixedI32<30>;

/// Returns the level plus the product of the gain and the distance from the level to the sample, rounded down. The
/// distance saturates. The new level lies between the old one and the sample. Precondition: the gain is from 0 to 1.
pub fn low_pass(level: Level, sample: Level, gain: Gain) -> Level {
    let distance = sample.saturating_sub(level);
    level.saturating_add_prod(distance, gain)
}
