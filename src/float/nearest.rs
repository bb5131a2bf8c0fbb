// Made by `make package` of crates/fixed_float/src/nearest.rt, which is proved: changes go there.

//! The floats nearest to words.
//!
//! A word is the number above the least one, less the magnitude of the least one. Each half of such a number is packed
//! into a float, whose lowest bits it becomes, and only a sum rounds. Loops do this without a branch.

use crate::casts::{nearest_i64_to_f32, nearest_u64_to_f32};
use crate::convert::Castable;
use crate::float::packed::{packed_f32, packed_f64};
use crate::word::{RawWord, Valued};

/// Returns the `f64` nearest to `a / 2^frac`, ties to even.
#[inline]
pub(crate) fn nearest_f64<T: Castable>(a: T, frac: u32) -> f64 {
    let (number, least) = (above_least(a), T::MIN.magnitude());
    if T::BITS <= 32 {
        held_f64(number, least, frac)
    } else {
        halves_f64(number, least, frac)
    }
}

/// Returns `number - least` over `2^frac`, which an `f64` holds.
#[inline]
pub(crate) fn held_f64(number: u64, least: u64, frac: u32) -> f64 {
    packed_f64(number, 0, frac) - packed_f64(least, 0, frac)
}

/// Returns the `f64` nearest to `number - least` over `2^frac`, ties to even. The upper half's difference is exact.
#[inline]
fn halves_f64(number: u64, least: u64, frac: u32) -> f64 {
    // The lower half is packed above 2^52, which is 2^20 times 2^32.
    let upper = packed_f64(number >> 32, 32, frac);
    let centre = packed_f64((least >> 32) + (1 << 20), 32, frac);
    let lower = packed_f64(number % (1 << 32), 0, frac);
    upper - centre + lower
}

/// Returns the `f32` nearest to `a / 2^frac`, ties to even.
#[inline]
pub(crate) fn nearest_f32<T: Castable>(a: T, frac: u32) -> f32 {
    let (number, least) = (above_least(a), T::MIN.magnitude());
    if T::BITS <= 16 {
        held_f32(number as u32, least as u32, frac)
    } else if T::BITS <= 32 {
        halves_f32(number as u32, least as u32, frac)
    } else {
        long_f32(a, frac)
    }
}

/// Returns `number - least` over `2^frac`, which an `f32` holds.
#[inline]
fn held_f32(number: u32, least: u32, frac: u32) -> f32 {
    packed_f32(number, 0, frac) - packed_f32(least, 0, frac)
}

/// Returns the `f32` nearest to `number - least` over `2^frac`, ties to even. The upper half's difference is exact.
#[inline]
fn halves_f32(number: u32, least: u32, frac: u32) -> f32 {
    // The lower half is packed above 2^23, which is 2^7 times 2^16.
    let upper = packed_f32(number >> 16, 16, frac);
    let centre = packed_f32((least >> 16) + (1 << 7), 16, frac);
    let lower = packed_f32(number % (1 << 16), 0, frac);
    upper - centre + lower
}

/// Does the same as `nearest_f32` for every word. Only the conversion rounds: the product by a power of two is exact,
/// since no number is as small as the least floats.
#[inline]
fn long_f32<T: Castable>(a: T, frac: u32) -> f32 {
    whole_f32(a) * f32::from_bits((127 - frac) << 23)
}

/// Returns the `f32` nearest to the value.
#[inline]
fn whole_f32<T: Castable>(a: T) -> f32 {
    if T::SIGNED {
        nearest_i64_to_f32(signed_of(a))
    } else {
        nearest_u64_to_f32(a.magnitude())
    }
}

/// Returns the value of a signed word.
#[inline]
fn signed_of<T: Castable>(a: T) -> i64 {
    a.to_wide() as i64
}

/// Returns by how much the value exceeds the least one of the word.
#[inline]
fn above_least<T: Castable>(a: T) -> u64 {
    (a.to_wide() - T::MIN.to_wide()) as u64
}
