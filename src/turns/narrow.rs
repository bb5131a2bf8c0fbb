// Made by `make package` of crates/fixed_turns/src/narrow.rt, which is proved: changes go there.

//! Sines and cosines of angles of few turns in radians, on words of up to 32 bits.

use crate::turns::angles::Angle;
use crate::turns::constants::{QUARTERS, RADIANS};
use crate::turns::series::{either, narrow_sum};
use crate::turns::signed::Signed;
use crate::turns::sines::turned;
use crate::word::RawWord;

/// Returns whether words have at most 32 bits, and their angles in units of `2^-frac` radians are below `2^19`.
#[inline(always)]
pub(crate) fn is_narrow(bits: u32, frac: u32) -> bool {
    bits <= 32 && bits <= frac + 19
}

/// Returns how many quarter turns `magnitude 2^-frac` radians are, to the nearest or hardly further.
#[inline(always)]
fn quarters_near(magnitude: u64, frac: u32) -> u64 {
    (magnitude * (QUARTERS >> 33) + (1 << (30 + frac))) >> (31 + frac)
}

/// Splits `magnitude 2^-frac` radians into quarter turns and a rest in units of `2^-64` radians. The rest differs from
/// the exact one by at most `2^18` units. If it is no more than that, the exact one may have either sign.
#[inline(always)]
fn split_near(magnitude: u64, frac: u32) -> Angle {
    let quarter = quarters_near(magnitude, frac);
    let ahead = (magnitude << (63 - frac)).wrapping_sub(quarter.wrapping_mul(RADIANS + 1));
    let below = ahead >> 63 == 1;
    Angle {
        quarter,
        below,
        rest: 2 * either(below, ahead.wrapping_neg(), ahead),
    }
}

/// Returns the sine of quarter turns and `x 2^-64` radians, which are subtracted if `below`, in units of `2^-frac`,
/// rounded to the nearest. If x is at most `2^18`, it may stand for an angle of either sign.
#[inline(always)]
fn sine_near(quarter: u64, below: bool, x: u64, frac: u32) -> Signed {
    let units = narrow_sum(quarter % 2, x);
    Signed {
        below_zero: turned(quarter, below && quarter % 2 == 0),
        magnitude: u128::from(((units >> (63 - frac)) + 1) >> 1),
    }
}

/// Returns the sine of `a 2^-frac` radians in units of `2^-frac`, rounded to the nearest.
#[inline(always)]
pub(crate) fn narrow_sine<T: RawWord>(a: T, frac: u32) -> Signed {
    let angle = split_near(a.magnitude(), frac);
    // a half turn changes the sign
    let half = either(a.is_below_zero(), 2, 0);
    sine_near(
        (angle.quarter % 4 + half) % 4,
        angle.below,
        angle.rest,
        frac,
    )
}

/// Returns the cosine of `a 2^-frac` radians in units of `2^-frac`, rounded to the nearest.
#[inline(always)]
pub(crate) fn narrow_cosine<T: RawWord>(a: T, frac: u32) -> Signed {
    let angle = split_near(a.magnitude(), frac);
    sine_near(angle.quarter % 4 + 1, angle.below, angle.rest, frac)
}
