// Made by `make package` of crates/fixed_turns/src/octants.rt, which is proved: changes go there.

//! The angle of a point `(a, b)` whose coordinates are not below 0, if b is at most a. The angle is at most an eighth
//! of a turn.

use crate::turns::guesses::{guess, probe};
use crate::turns::series::{cosine, radians_of, sine};

/// Returns 2 to the power of `exponent`. Precondition: `exponent` is below 64.
#[inline(always)]
pub(crate) fn power(exponent: u32) -> u64 {
    1 << exponent
}

/// Returns whether `(a, b)` lies to the left of the direction of `x`, an angle in units of `2^-64` radians. The result
/// is right up to `2^-k` times a, where k is 40 on words of up to 32 bits and 60 on words of 64 bits.
#[inline(always)]
fn is_left(a: u64, b: u64, x: u64, bits: u32) -> bool {
    u128::from(a) * u128::from(sine(x, bits)) <= u128::from(b) * cosine(x, bits)
}

/// Returns whether `(a, b)` lies to the left of the direction of `units + 1/2` units of `2^-frac` turns, up to the same
/// bound. Precondition: that direction is below an eighth of a turn.
#[inline(always)]
fn is_above_half(a: u64, b: u64, units: u64, bits: u32, frac: u32) -> bool {
    is_left(a, b, radians_of((2 * units + 1) << (65 - frac)), bits)
}

/// Returns the angle of `(a, b)` in units of `2^-frac` turns, rounded to the nearest up to the same bound.
#[inline(always)]
fn nearest(a: u64, b: u64, guess: u64, bits: u32, frac: u32) -> u64 {
    let mut low = 0;
    let mut high = power(frac - 2) / 2;
    let mut stride = 1_u64;
    while low < high {
        let units = probe(
            u128::from(low),
            u128::from(high),
            u128::from(guess),
            u128::from(stride),
        ) as u64;
        if is_above_half(a, b, units, bits, frac) {
            low = units + 1;
        } else {
            high = units;
        }
        stride = stride.saturating_mul(2);
    }
    low
}

/// Returns the angle of `(a, b)` in units of `2^-frac` turns, rounded to the nearest up to the same bound. It is 0 on
/// the axis. On the diagonal it is an eighth of a turn, rounded down.
#[inline(always)]
pub(crate) fn rest_of(a: u64, b: u64, bits: u32, frac: u32) -> u64 {
    if b == 0 {
        0
    } else if b == a {
        power(frac - 2) / 2
    } else {
        nearest(a, b, guess(a, b, bits, frac), bits, frac)
    }
}
