// Made by `make package` of crates/fixed_elementary/src/reductions.rt, which is proved: changes go there.

//! Logarithms to the base 2 by factors, each of which brings a mantissa nearer to 1. What is left needs one product.

use crate::elementary::factors::factor_of;
use crate::elementary::mantissas::{broad_whole, whole};
use crate::elementary::wide::{broad_scaled, high, narrow_scaled, product};

/// The logarithm of `1 + 2^-63`, in units of `2^-126`, rounded down.
const NARROW_UNIT: u64 = 0xb8aa_3b29_5c17_f0bb;

/// The logarithm of `1 + 2^-127`, in units of `2^-254`, rounded down.
const BROAD_UNIT: u128 = 0xb8aa_3b29_5c17_f0bb_be87_fed0_691d_3e88;

/// How many units of `2^-62` a logarithm may lack.
pub(crate) const NARROW_LACK: u64 = 14;

/// How many units of `2^-126` a logarithm may lack.
pub(crate) const BROAD_LACK: u128 = 23;

/// A mantissa in units of `2^-63`, and the logarithm of what it was over this, in units of `2^-62`.
#[derive(Clone, Copy)]
struct NarrowReduction {
    mantissa: u64,
    log: u64,
}

/// A mantissa in units of `2^-127`, and the logarithm of what it was over this, in units of `2^-126`.
#[derive(Clone, Copy)]
struct BroadReduction {
    mantissa: u128,
    log: u128,
}

/// A logarithm: its whole part, and the rest in units of `2^-62`.
#[derive(Clone, Copy)]
pub(crate) struct NarrowLog {
    pub digits: u64,
    pub part: u64,
}

/// A logarithm: its whole part, and the rest in units of `2^-126`.
#[derive(Clone, Copy)]
pub(crate) struct BroadLog {
    pub digits: u128,
    pub part: u128,
}

/// Returns the digit of a group, which is the quotient by a power of two. It is at most 127.
#[inline]
fn narrow_digit(rest: u64, shift: u32) -> u64 {
    (rest >> shift).min(127)
}

/// Does the same in 128 bits.
#[inline]
fn broad_digit(rest: u128, shift: u32) -> u64 {
    (rest >> shift).min(127) as u64
}

/// Returns the mantissa times the factor of a group, rounded down.
#[inline]
fn narrow_step(mantissa: u64, group: u32) -> NarrowReduction {
    let digit = narrow_digit(mantissa - (1 << 63), 56 - 7 * group);
    let factor = factor_of(digit, group);
    NarrowReduction {
        mantissa: narrow_scaled(mantissa, factor.factor),
        log: (factor.log >> 64) as u64,
    }
}

/// Does the same in 128 bits.
#[inline]
fn broad_step(mantissa: u128, group: u32) -> BroadReduction {
    let digit = broad_digit(mantissa - (1 << 127), 120 - 7 * group);
    let factor = factor_of(digit, group);
    BroadReduction {
        mantissa: broad_scaled(mantissa, factor.factor),
        log: factor.log,
    }
}

/// Returns a mantissa of hardly more than `1 + 2^-21`, and the logarithm of the given one over it.
#[inline]
fn narrow_reduced(mantissa: u64) -> NarrowReduction {
    let mut part = NarrowReduction { mantissa, log: 0 };
    for group in 0..3 {
        let next = narrow_step(part.mantissa, group);
        part = NarrowReduction {
            mantissa: next.mantissa,
            log: part.log + next.log,
        };
    }
    part
}

/// Returns a mantissa of hardly more than `1 + 2^-42`, and the logarithm of the given one over it.
#[inline]
fn broad_reduced(mantissa: u128) -> BroadReduction {
    let mut part = BroadReduction { mantissa, log: 0 };
    for group in 0..6 {
        let next = broad_step(part.mantissa, group);
        part = BroadReduction {
            mantissa: next.mantissa,
            log: part.log + next.log,
        };
    }
    part
}

/// Returns the logarithm of 1 and a rest, which is in units of `2^-63`, by the first two terms of its series.
#[inline]
fn narrow_rest(rest: u64) -> u64 {
    let half_square = high(rest, rest);
    let exponent = rest.saturating_sub(half_square + 1);
    high(exponent, NARROW_UNIT)
}

/// Does the same in 128 bits, with units of `2^-127`.
#[inline]
fn broad_rest(rest: u128) -> u128 {
    let half_square = product(rest, rest).high;
    let exponent = rest.saturating_sub(half_square + 1);
    product(exponent, BROAD_UNIT).high
}

/// Returns a logarithm to the base 2. The exact one is at most 14 units larger. Precondition: `a` is above 0.
#[inline]
pub(crate) fn narrow_log(a: u64) -> NarrowLog {
    let start = whole(a);
    let reduced = narrow_reduced(start.mantissa);
    NarrowLog {
        digits: start.digits,
        part: reduced.log + narrow_rest(reduced.mantissa - (1 << 63)),
    }
}

/// Returns a logarithm to the base 2. The exact one is at most 23 units larger. Precondition: `a` is above 0.
#[inline]
pub(crate) fn broad_log(a: u64) -> BroadLog {
    let start = broad_whole(a);
    let reduced = broad_reduced(start.mantissa);
    BroadLog {
        digits: start.digits,
        part: reduced.log + broad_rest(reduced.mantissa - (1 << 127)),
    }
}

/// Converts a logarithm to units of `2^-places`, rounded down.
#[inline]
pub(crate) fn narrow_units(log: NarrowLog, places: u32) -> u64 {
    (log.digits << places) + (log.part >> (62 - places))
}

/// Does the same in 128 bits.
#[inline]
pub(crate) fn broad_units(log: BroadLog, places: u32) -> u128 {
    (log.digits << places) + (log.part >> (126 - places))
}
