// Made by `make package` of crates/fixed_turns/src/guesses.rt, which is proved: changes go there.

//! A guess at the angle of a point, and where a search looks next. No contract states how near the guess is: the search
//! returns a correct result from any start.

use crate::turns::constants::{PI, QUARTERS};
use crate::turns::series::{cosine, high, radians_of, sine};

/// A quarter turn in radians, in units of `2^-64`, rounded down.
const QUARTER: u128 = PI >> 63;

/// The largest rest, which is an eighth of a turn, in units of `2^-64` quarter turns.
const EIGHTH: u64 = 1 << 63;

/// The coefficients of a polynomial that approximates the angle of a slope, the highest first. Its degrees are odd and
/// at most 13, its signs alternate, and the coefficients are in units of `2^-64` quarter turns.
const COEFFICIENTS: [u64; 7] = [
    0x011c_32ec_0a13_e5f6,
    0x057a_055a_ae55_3afd,
    0x0cfa_05cb_be43_be7c,
    0x1591_26f1_cbe3_8275,
    0x2048_1ef1_4d8e_96aa,
    0x364c_829e_91b1_c786,
    0xa2f9_59e6_6139_3c66,
];

/// Returns the angle of a slope in units of `2^-64` quarter turns, with an error of some `2^-22` quarter turns. The
/// slope is in units of `2^-64`.
#[inline(always)]
fn angle_of_slope(slope: u64) -> u64 {
    let square = high(slope, slope);
    let mut sum = 0_u64;
    for coefficient in COEFFICIENTS {
        sum = coefficient.wrapping_sub(high(square, sum));
    }
    high(slope, sum)
}

/// Returns about `part / whole` in units of `2^-64`, if `part` has at most `64-scale` bits.
#[inline(always)]
fn quotient(part: u64, whole: u64, scale: u32) -> u64 {
    let divisor = (whole >> 32).max(1);
    ((part << scale) / divisor) << (32 - scale)
}

/// Returns a nearer angle, by a step of Newton's method. The step is the part of the point across the direction of the
/// rest, divided by the part along it.
#[inline(always)]
fn nearer(a: u64, b: u64, rest: u64, bits: u32, scale: u32) -> u64 {
    let x = radians_of(rest);
    let (sine, cosine) = (sine(x, bits), cosine(x, bits).min((1 << 64) - 1) as u64);
    let along = high(a, cosine).wrapping_add(high(b, sine));
    let (ahead, behind) = (high(b, cosine), high(a, sine));
    let moved = if behind <= ahead {
        rest.wrapping_add(high(quotient(ahead - behind, along, scale), QUARTERS))
    } else {
        rest.saturating_sub(high(quotient(behind - ahead, along, scale), QUARTERS))
    };
    moved.min(EIGHTH)
}

/// Returns about the angle of `(a, b)` in units of `2^-64` quarter turns. It is near enough for a guess in units of
/// `2^-frac` turns.
#[inline(always)]
fn rest_near(a: u64, b: u64, bits: u32, frac: u32) -> u64 {
    let zeros = a.leading_zeros() % 64;
    let (a, b) = ((a << zeros) >> 1, (b << zeros) >> 1);
    let slope = (b / (a >> 32).max(1)).min((1 << 32) - 1) << 32;
    let first = angle_of_slope(slope).min(EIGHTH);
    if frac <= 20 {
        return first;
    }
    let second = nearer(a, b, first, bits, 20);
    if frac <= 48 {
        second
    } else {
        nearer(a, b, second, bits, 32)
    }
}

/// Returns about the angle of `(a, b)` in units of `2^-frac` turns.
#[inline(always)]
pub(crate) fn guess(a: u64, b: u64, bits: u32, frac: u32) -> u64 {
    ((rest_near(a, b, bits, frac) >> (65 - frac)) + 1) / 2
}

/// Returns about the angle of a point in units of `2^-frac` radians, from 0 to pi. The point is `y` above the origin, and
/// `x` to its right or, if `left`, to its left.
#[inline(always)]
pub(crate) fn radians_near(left: bool, x: u64, y: u64, bits: u32, frac: u32) -> u128 {
    let rest = rest_near(x.max(y), x.min(y), bits, (frac + 2).min(64));
    let beside = u128::from(radians_of(rest));
    let angle = match (y <= x, left) {
        (true, false) => beside,
        (true, true) => 2 * QUARTER - beside,
        (false, true) => QUARTER + beside,
        (false, false) => QUARTER - beside,
    };
    (angle + ((1 << (64 - frac)) >> 1)) >> (64 - frac)
}

/// Returns where the search looks next, from `low` to below `high`. That is the guess if it is in this range. If it is
/// not, the search looks beside the nearer end: further away as the stride grows, but by at most half of the range, or
/// by 1.
#[inline(always)]
pub(crate) fn probe(low: u128, high: u128, guess: u128, stride: u128) -> u128 {
    let reach = (stride / 4).min((high - low) / 2);
    if guess < low {
        low + reach
    } else if high <= guess {
        high - reach.max(1)
    } else {
        guess
    }
}
