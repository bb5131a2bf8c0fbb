// Made by `make package` of crates/tests_math/src/calls.rt, which is proved: changes go there.

//! Known lengths, reciprocal roots, logarithms and powers.

use crate::elementary::{exp2_of, hypot_of, log2_of, recip_sqrt_of};
use crate::math::{CheckedMath, OverflowingMath, SaturatingMath, WrappingMath};
use crate::num::{FixedI8, FixedI32};
use crate::tests::math::fitting::log2_with_16;
use crate::tests::math::found::{Found, bits_of, check, check_fit, short_bits};
use crate::word::Side;

fn length(a: i8, b: i8) -> Found {
    let outcome = hypot_of(a, b);
    Some((outcome.wrapped as i128, outcome.side))
}

fn long_length(a: u64, b: u64) -> Found {
    let outcome = hypot_of(a, b);
    Some((outcome.wrapped as i128, outcome.side))
}

/// Asserts the lengths of pairs.
fn check_lengths(rows: &[(i8, i8, i128, Side)]) {
    for &(a, b, wrapped, side) in rows {
        let operands = [a as i128, b as i128, 0];
        check("length", operands, length(a, b), (wrapped, side));
    }
}

#[test]
fn lengths() {
    check_lengths(&[
        (48, -64, 80, Side::Fits),
        (24, 36, 43, Side::Fits),
        (-128, 0, -128, Side::Above),
        (-128, -128, -75, Side::Above),
        (0, 0, 0, Side::Fits),
    ]);
    // The root of 2^129 - 2^66 + 2, which has 65 bits.
    let past = long_length(u64::MAX, u64::MAX);
    let wanted = (7640891576956012807, Side::Above);
    check("length of the greatest", [0; 3], past, wanted);
}

/// The reciprocal root of bits above 0.
fn reciprocal_root(a: u64, frac: u32) -> Found {
    if a > 0 && frac <= 64 {
        let outcome = recip_sqrt_of(a, frac);
        Some((outcome.wrapped as i128, outcome.side))
    } else {
        None
    }
}

/// Asserts the reciprocal roots of rows of bits and fraction.
fn check_reciprocal_roots(rows: &[(u64, u32, i128, Side)]) {
    for &(a, frac, wrapped, side) in rows {
        let operands = [a as i128, frac as i128, 0];
        let found = reciprocal_root(a, frac);
        check("reciprocal root", operands, found, (wrapped, side));
    }
}

#[test]
fn reciprocal_roots() {
    check_reciprocal_roots(&[
        (64, 4, 8, Side::Fits),
        (2, 63, 0, Side::Above),
        (1, 64, 0, Side::Above),
        (u64::MAX, 64, 0, Side::Above),
        (u64::MAX, 43, 6074000999, Side::Fits),
        (3, 40, 665639541039271462, Side::Fits),
    ]);
}

/// The logarithm of bits above 0.
fn logarithm(a: i32, frac: u32) -> Found {
    if a > 0 && frac <= 32 {
        let outcome = log2_of(a, frac);
        Some((outcome.wrapped as i128, outcome.side))
    } else {
        None
    }
}

fn long_logarithm() -> Found {
    let outcome = log2_of(3_u64, 63);
    Some((outcome.wrapped as i128, outcome.side))
}

/// Asserts the logarithms of rows of bits and fraction.
fn check_logarithms(rows: &[(i32, u32, i128, Side)]) {
    for &(a, frac, wrapped, side) in rows {
        let operands = [a as i128, frac as i128, 0];
        check("logarithm", operands, logarithm(a, frac), (wrapped, side));
    }
}

#[test]
fn logarithms() {
    check_logarithms(&[
        (10, 0, 3, Side::Fits),
        (655360, 16, 217705, Side::Fits),
        (1, 16, -1048576, Side::Fits),
        (1, 31, -2147483648, Side::Below),
        // 10^-9 of a unit above a whole number of units
        (1860085729, 32, -890252365, Side::Below),
    ]);
    let wanted = (5395326771760153551, Side::Below);
    check("logarithm", [3, 63, 0], long_logarithm(), wanted);
}

/// The power of 2.
fn power(a: i32, frac: u32) -> Found {
    if frac <= 32 {
        let outcome = exp2_of(a, frac);
        Some((outcome.wrapped as i128, outcome.side))
    } else {
        None
    }
}

fn root_of_two() -> Found {
    let outcome = exp2_of(1_u64 << 62, 63);
    Some((outcome.wrapped as i128, outcome.side))
}

fn power_past_the_end() -> Side {
    exp2_of(64_u64, 0).side
}

/// Asserts the powers of 2 of rows of bits and fraction.
fn check_powers(rows: &[(i32, u32, i128)]) {
    for &(a, frac, wrapped) in rows {
        let operands = [a as i128, frac as i128, 0];
        check_fit("power", operands, power(a, frac), wrapped);
    }
}

#[test]
fn powers() {
    check_powers(&[
        (16, 4, 32),
        (8, 4, 22),
        (-80, 4, 0),
        (655360, 16, 67108864),
        (32768, 16, 92681),
        (-1048576, 16, 1),
        (-1048577, 16, 0),
    ]);
    check_fit(
        "the power of a half",
        [0; 3],
        root_of_two(),
        13043817825332782212,
    );
    assert!(power_past_the_end() == Side::Above);
}

/// The calls of each policy at one number: the length of the pair of it twice, and the power of 2.
fn calls(number: FixedI8<4>) -> (Option<FixedI8<4>>, (FixedI8<4>, bool), [FixedI8<4>; 3]) {
    (
        number.checked_hypot(number),
        number.overflowing_hypot(number),
        [
            number.saturating_hypot(number),
            number.wrapping_hypot(number),
            number.saturating_exp2(),
        ],
    )
}

/// What those calls leave of a number of 8 bits: whether checked is none, overflowing, then saturating, wrapping and the
/// power.
fn left_by_calls(bits: i8) -> (bool, (i8, bool), [i8; 3]) {
    let (checked, (left, past), others) = calls(FixedI8::<4> { bits });
    (checked.is_none(), (left.bits, past), short_bits(others))
}

#[test]
fn typed_calls() {
    assert!(left_by_calls(96) == (true, (-121, true), [127, -121, 127]));
}

/// The calls of 32 bits at ten, and the reciprocal root of 0.
fn calls_of_32_bits() -> [Option<i32>; 5] {
    let ten = FixedI32::<16> { bits: 655360 };
    let none = FixedI32::<16> { bits: 0 };
    [
        Some(log2_with_16(ten).bits),
        bits_of(ten.checked_log2()),
        Some(ten.wrapping_recip_sqrt().bits),
        bits_of(ten.checked_exp2()),
        bits_of(none.checked_recip_sqrt()),
    ]
}

#[test]
fn typed_calls_of_32_bits() {
    let wanted = [
        Some(217705),
        Some(217705),
        Some(20724),
        Some(67108864),
        None,
    ];
    assert!(calls_of_32_bits() == wanted);
}
