// Made by `make package` of crates/fixed_turns/src/angles.rt, which is proved: changes go there.

//! Angles in turns, split into quarter turns and a rest.

use crate::word::RawWord;

/// A number of quarter turns, and a rest, which is subtracted if `below`. The unit of the rest is `2^-64` of a quarter
/// turn or of a radian, as the function says that returns it.
#[derive(Clone, Copy)]
pub(crate) struct Angle {
    pub(crate) quarter: u64,
    pub(crate) below: bool,
    pub(crate) rest: u64,
}

/// Converts a magnitude from units of `2^-frac` to units of `2^-64`, without its whole part.
#[inline(always)]
fn moved(magnitude: u64, frac: u32) -> u64 {
    ((u128::from(magnitude) << (64 - frac)) % (1 << 64)) as u64
}

/// Returns the angle `a 2^-frac` without its whole turns, in units of `2^-64` turns. The result is not below 0. Each
/// branch asks for the magnitude anew, so that both compile to one shift. Precondition: `frac` is at most the width.
#[inline(always)]
pub(crate) fn part_of_turn<T: RawWord>(a: T, frac: u32) -> u64 {
    if a.is_below_zero() {
        moved(a.magnitude(), frac).wrapping_neg()
    } else {
        moved(a.magnitude(), frac)
    }
}

/// Splits an angle in units of `2^-64` turns into quarter turns, at most 3, and a rest of at most an eighth of a turn.
/// Whole turns are left out.
#[inline(always)]
pub(crate) fn parted(part: u64) -> Angle {
    let moved = part.wrapping_add(1 << 61);
    let past = moved % (1 << 62);
    if past < 1 << 61 {
        Angle {
            quarter: moved >> 62,
            below: true,
            rest: 4 * ((1 << 61) - past),
        }
    } else {
        Angle {
            quarter: moved >> 62,
            below: false,
            rest: 4 * (past - (1 << 61)),
        }
    }
}
