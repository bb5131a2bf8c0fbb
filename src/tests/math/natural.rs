// Made by `make package` of crates/tests_math/src/natural.rt, which is proved: changes go there.

//! Known logarithms and powers, computed apart with 400 bits, and each call at a concrete type.

use crate::natural::{
    CheckedNatural, OverflowingNatural, SaturatingNatural, WrappingNatural, exp_of, ln_of,
    log10_of, pow_of,
};
use crate::num::{FixedI8, FixedI32};
use crate::tests::math::fitting::ln_with_16;
use crate::tests::math::found::{
    Found, bits_of, check, check_fit, checked_bits, found_of, short_bits,
};
use crate::word::Side;

/// The natural logarithm of bits above 0.
fn logarithm(a: i32, frac: u32) -> Found {
    if a > 0 && frac <= 32 {
        let outcome = ln_of(a, frac);
        Some((outcome.wrapped as i128, outcome.side))
    } else {
        None
    }
}

fn logarithm_of_the_greatest() -> Found {
    let outcome = ln_of(u64::MAX, 32);
    Some((outcome.wrapped as i128, outcome.side))
}

fn logarithm_of_the_least() -> Found {
    let outcome = ln_of(1_i64, 56);
    Some((outcome.wrapped as i128, outcome.side))
}

/// Asserts the natural logarithms of rows of bits and fraction.
fn check_logarithms(rows: &[(i32, u32, i128, Side)]) {
    for &(a, frac, wrapped, side) in rows {
        let operands = [a as i128, frac as i128, 0];
        check("ln", operands, logarithm(a, frac), (wrapped, side));
    }
}

#[test]
fn natural_logarithms() {
    check_logarithms(&[
        (10, 0, 2, Side::Fits),
        (65536, 16, 0, Side::Fits),
        (178145, 16, 65535, Side::Fits),
        (1, 16, -726818, Side::Fits),
        (i32::MAX, 16, 681391, Side::Fits),
        (5, 31, 261725246, Side::Below),
    ]);
    check_fit(
        "ln of the greatest",
        [0; 3],
        logarithm_of_the_greatest(),
        95265423098,
    );
    check_fit(
        "ln",
        [1, 56, 0],
        logarithm_of_the_least(),
        -2797005016138080926,
    );
}

/// The decimal logarithm of bits above 0.
fn decimal_logarithm(a: i32, frac: u32) -> Found {
    if a > 0 && frac <= 32 {
        let outcome = log10_of(a, frac);
        Some((outcome.wrapped as i128, outcome.side))
    } else {
        None
    }
}

fn logarithm_of_ten_to_the_19th() -> Found {
    let outcome = log10_of(10_000_000_000_000_000_000_u64, 0);
    Some((outcome.wrapped as i128, outcome.side))
}

fn logarithm_of_a_thousand() -> Found {
    found_of(log10_of(4294967296000_i64, 32))
}

/// Asserts the decimal logarithms of rows of bits and fraction.
fn check_decimal_logarithms(rows: &[(i32, u32, i128)]) {
    for &(a, frac, wrapped) in rows {
        let operands = [a as i128, frac as i128, 0];
        check_fit("log10", operands, decimal_logarithm(a, frac), wrapped);
    }
}

#[test]
fn decimal_logarithms() {
    check_decimal_logarithms(&[
        (655360, 16, 65536),
        (65536, 16, 0),
        (1, 16, -315653),
        (i32::MAX, 0, 9),
    ]);
    check_fit("log10 of 10^19", [0; 3], logarithm_of_ten_to_the_19th(), 19);
    check_fit(
        "log10 of 1000",
        [0; 3],
        logarithm_of_a_thousand(),
        12884901888,
    );
}

/// The power of e.
fn power_of_e(a: i32, frac: u32) -> Found {
    if frac <= 32 {
        let outcome = exp_of(a, frac);
        Some((outcome.wrapped as i128, outcome.side))
    } else {
        None
    }
}

fn long_power_of_e() -> Found {
    found_of(exp_of(12345678901_i64, 32))
}

/// Where e to the greatest power lies, and 1 without integer bits.
fn sides_past_the_end() -> [Side; 2] {
    [exp_of(u64::MAX, 0).side, exp_of(0_u64, 64).side]
}

/// Asserts the powers of e of rows of bits and fraction.
fn check_powers_of_e(rows: &[(i32, u32, i128)]) {
    for &(a, frac, wrapped) in rows {
        let operands = [a as i128, frac as i128, 0];
        check_fit("exp", operands, power_of_e(a, frac), wrapped);
    }
}

#[test]
fn powers_of_e() {
    check_powers_of_e(&[
        (0, 16, 65536),
        (65536, 16, 178145),
        (-65536, 16, 24109),
        (681391, 16, 2147470397),
        (-726816, 16, 1),
        (-726818, 16, 0),
        (i32::MIN, 16, 0),
        (21, 0, 1318815734),
    ]);
    check_fit("exp", [12345678901, 32, 0], long_power_of_e(), 76088436796);
    assert!(sides_past_the_end() == [Side::Above; 2]);
}

/// The power of a number above 0 with 16 fraction bits.
fn power(a: i32, b: i32) -> Found {
    if a > 0 {
        let outcome = pow_of(a, b, 16);
        Some((outcome.wrapped as i128, outcome.side))
    } else {
        None
    }
}

/// 3 to the power of minus a half.
fn long_power() -> Found {
    found_of(pow_of(12884901888_i64, -2147483648, 32))
}

/// Asserts the powers of rows of base and exponent, each with 16 fraction bits.
fn check_powers(rows: &[(i32, i32, i128, Side)]) {
    for &(a, b, wrapped, side) in rows {
        let operands = [a as i128, b as i128, 16];
        check("pow", operands, power(a, b), (wrapped, side));
    }
}

#[test]
fn powers_of_numbers() {
    check_powers(&[
        (196608, 131072, 589824, Side::Fits),
        (98304, 655360, 3779136, Side::Fits),
        (131072, 32768, 92681, Side::Fits),
        (655360, -65536, 6553, Side::Fits),
        (655360, 19660, 130757, Side::Fits),
        (65537, i32::MAX, 108050, Side::Fits),
        (178145, i32::MIN, 0, Side::Fits),
        (655360, 0, 65536, Side::Fits),
        (32768, -1048576, 0, Side::Above),
    ]);
    let operands = [12884901888, -2147483648, 32];
    check_fit("pow", operands, long_power(), 2479700524);
}

/// The calls of each policy at one number above 0: the logarithms, the power of e and the number to its own power.
fn calls(
    number: FixedI8<4>,
) -> (
    [Option<FixedI8<4>>; 3],
    (FixedI8<4>, bool),
    [FixedI8<4>; 3],
    FixedI8<4>,
) {
    (
        [
            number.checked_ln(),
            number.checked_exp(),
            number.checked_pow(number),
        ],
        number.overflowing_log10(),
        [
            number.saturating_ln(),
            number.saturating_exp(),
            number.saturating_pow(number),
        ],
        number.wrapping_ln(),
    )
}

/// What those calls leave of a number of 8 bits above 0, by its bits.
fn left_by_calls(bits: i8) -> ([Option<i8>; 3], (i8, bool), [i8; 3], i8) {
    let (checked, (left, past), saturating, wrapped) = calls(FixedI8::<4> { bits });
    (
        checked_bits(checked),
        (left.bits, past),
        short_bits(saturating),
        wrapped.bits,
    )
}

#[test]
fn natural_calls() {
    let least = (
        [Some(-45), Some(17), Some(13)],
        (-20, false),
        [-45, 17, 13],
        -45,
    );
    assert!(left_by_calls(1) == least);
    let greatest = ([Some(33), None, None], (14, false), [33, 127, 127], 33);
    assert!(left_by_calls(127) == greatest);
}

/// The logarithms, the power of e and the power of ten by itself in 32 bits.
fn calls_at_ten() -> [Option<i32>; 4] {
    let ten = FixedI32::<16> { bits: 655360 };
    [
        Some(ln_with_16(ten).bits),
        bits_of(ten.checked_log10()),
        bits_of(ten.checked_exp()),
        bits_of(ten.checked_pow(ten)),
    ]
}

#[test]
fn natural_calls_of_32_bits() {
    assert!(calls_at_ten() == [Some(150902), Some(65536), Some(1443526462), None]);
}

/// The power of 0 by ten, and its logarithms.
fn calls_at_zero() -> [Option<i32>; 3] {
    let ten = FixedI32::<16> { bits: 655360 };
    let none = FixedI32::<16> { bits: 0 };
    [
        bits_of(none.checked_pow(ten)),
        bits_of(none.checked_ln()),
        bits_of(none.checked_log10()),
    ]
}

#[test]
fn natural_calls_of_zero() {
    assert!(calls_at_zero() == [None; 3]);
}
