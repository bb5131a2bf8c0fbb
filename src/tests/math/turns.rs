// Made by `make package` of crates/tests_math/src/turns.rt, which is proved: changes go there.

//! Known sines, cosines and angles, computed apart with 400 bits, and each call at a concrete type.

use crate::num::{FixedI8, FixedI32};
use crate::tests::math::found::{
    Found, Left, check_all, check_fit, check_left, checked_bits, flagged_bits, short_bits,
};
use crate::tests::math::turns_fitting::{angle_of, sine_and_cosine};
use crate::turns::{
    CheckedTurns, OverflowingTurns, SaturatingTurns, WrappingTurns, atan2_turns_of, cos_turns_of,
    sin_turns_of,
};
use crate::word::Side;

fn sine(a: i32, frac: u32) -> Found {
    if frac <= 32 {
        let outcome = sin_turns_of(a, frac);
        Some((outcome.wrapped as i128, outcome.side))
    } else {
        None
    }
}

fn cosine(a: i32, frac: u32) -> Found {
    if frac <= 32 {
        let outcome = cos_turns_of(a, frac);
        Some((outcome.wrapped as i128, outcome.side))
    } else {
        None
    }
}

/// Asserts the sines and the cosines of rows of bits and fraction.
fn check_sines(rows: &[(i32, u32, i128, i128)]) {
    for &(a, frac, wanted_sine, wanted_cosine) in rows {
        let operands = [a as i128, frac as i128, 0];
        check_fit("sine", operands, sine(a, frac), wanted_sine);
        check_fit("cosine", operands, cosine(a, frac), wanted_cosine);
    }
}

#[test]
fn sines_and_cosines() {
    check_sines(&[
        (0, 16, 0, 65536),
        (16384, 16, 65536, 0),
        (32768, 16, 0, -65536),
        (49152, 16, -65536, 0),
        (65536, 16, 0, 65536),
        (1, 16, 6, 65536),
        (8192, 16, 46341, 46341),
        (5461, 16, 32766, 56757),
        (12345, 16, 60684, 24748),
        (-12345, 16, -60684, 24748),
        (100000, 16, -10609, -64672),
        (i32::MIN, 16, 0, 65536),
        (i32::MAX, 16, -6, 65536),
        (1000000, 30, 6283149, 1073723440),
        (123456789, 28, 66900315, -259965270),
        (3, 2, -4, 0),
        (7, 0, 0, 1),
    ]);
}

/// A sine and a cosine in 64 bits.
fn long_sine_and_cosine() -> [Found; 2] {
    let sine = sin_turns_of(1_234_567_890_123_456_789_i64, 60);
    let cosine = cos_turns_of(1_i64 << 61, 62);
    [
        Some((sine.wrapped as i128, sine.side)),
        Some((cosine.wrapped as i128, cosine.side)),
    ]
}

fn short_sine(a: i8) -> Found {
    let outcome = sin_turns_of(a, 7);
    Some((outcome.wrapped as i128, outcome.side))
}

/// The sine of three quarters of a turn, without a sign.
fn unsigned_sine() -> Found {
    let outcome = sin_turns_of(12_u8, 4);
    Some((outcome.wrapped as i128, outcome.side))
}

/// The sine of a quarter of a turn, without a sign and without integer bits.
fn long_unsigned_sine() -> Found {
    let outcome = sin_turns_of(1_u64 << 62, 64);
    Some((outcome.wrapped as i128, outcome.side))
}

#[test]
fn sines_of_other_words() {
    let [sine, cosine] = long_sine_and_cosine();
    check_all(&[
        ("sine in 64 bits", sine, (496238384467647991, Side::Fits)),
        (
            "cosine in 64 bits",
            cosine,
            (-4611686018427387904, Side::Fits),
        ),
        ("sine of a quarter", short_sine(32), (-128, Side::Above)),
        (
            "sine of minus a quarter",
            short_sine(-32),
            (-128, Side::Fits),
        ),
        ("unsigned sine", unsigned_sine(), (240, Side::Below)),
        ("long unsigned sine", long_unsigned_sine(), (0, Side::Above)),
    ]);
}

/// The calls of each policy at one point: the sine and the cosine of y turns, and the angle of the point.
fn calls<const F: u32>(
    y: FixedI8<F>,
    x: FixedI8<F>,
) -> (
    [Option<FixedI8<F>>; 3],
    [(FixedI8<F>, bool); 3],
    [FixedI8<F>; 3],
    [FixedI8<F>; 3],
) {
    (
        [
            y.checked_sin_turns(),
            y.checked_cos_turns(),
            y.checked_atan2_turns(x),
        ],
        [
            y.overflowing_sin_turns(),
            y.overflowing_cos_turns(),
            y.overflowing_atan2_turns(x),
        ],
        [
            y.saturating_sin_turns(),
            y.saturating_cos_turns(),
            y.saturating_atan2_turns(x),
        ],
        [
            y.wrapping_sin_turns(),
            y.wrapping_cos_turns(),
            y.wrapping_atan2_turns(x),
        ],
    )
}

/// What those calls leave of numbers of 8 bits, by their bits: checked, overflowing, saturating, wrapping.
fn left_by_calls<const F: u32>(y: i8, x: i8) -> Left {
    let (checked, overflowing, saturating, wrapping) =
        calls(FixedI8::<F> { bits: y }, FixedI8::<F> { bits: x });
    (
        checked_bits(checked),
        flagged_bits(overflowing),
        short_bits(saturating),
        short_bits(wrapping),
    )
}

#[test]
fn turn_calls() {
    check_left(
        left_by_calls::<4>(-5, 5),
        (
            [Some(-15), Some(-6), Some(-2)],
            [(-15, false), (-6, false), (-2, false)],
            [-15, -6, -2],
            [-15, -6, -2],
        ),
    );
}

/// The sine of a quarter turn does not fit without integer bits.
#[test]
fn turn_calls_past_the_end() {
    check_left(
        left_by_calls::<7>(32, -32),
        (
            [None, Some(0), Some(48)],
            [(-128, true), (0, false), (48, false)],
            [127, 0, 48],
            [-128, 0, 48],
        ),
    );
}

#[test]
fn strict_turn_calls() {
    let number = FixedI32::<16> { bits: 12345 };
    let (sine, cosine) = sine_and_cosine(number);
    assert!(sine.bits == 60684 && cosine.bits == 24748);
    assert!(angle_of(number, number).bits == 8192);
}

/// The angle of a point other than the origin.
fn angle(y: i32, x: i32, frac: u32) -> Found {
    if frac <= 32 && x != 0 {
        let outcome = atan2_turns_of(y, x, frac);
        Some((outcome.wrapped as i128, outcome.side))
    } else {
        None
    }
}

/// The angle of a point straight above the origin.
fn angle_above() -> Found {
    let outcome = atan2_turns_of(7_i32, 0, 16);
    Some((outcome.wrapped as i128, outcome.side))
}

/// Asserts the angles of rows of a point and its fraction.
fn check_angles(rows: &[(i32, i32, u32, i128)]) {
    for &(y, x, frac, wanted) in rows {
        let operands = [y as i128, x as i128, frac as i128];
        check_fit("angle", operands, angle(y, x, frac), wanted);
    }
}

#[test]
fn angles() {
    check_angles(&[
        (0, 1, 16, 0),
        (5, 5, 16, 8192),
        (0, -1, 16, 32768),
        (-9, -9, 16, -24576),
        (3, -4, 16, 26056),
        (-3, -4, 16, -26056),
        (-1, 2, 31, -158466703),
        (1, -1, 1, 1),
    ]);
    check_fit("angle", [7, 0, 16], angle_above(), 16384);
}

#[test]
fn turn_calls_at_angles() {
    check_left(
        left_by_calls::<4>(48, -64),
        (
            [Some(0), Some(16), Some(6)],
            [(0, false), (16, false), (6, false)],
            [0, 16, 6],
            [0, 16, 6],
        ),
    );
    let none = FixedI8::<4> { bits: 0 };
    assert!(none.checked_atan2_turns(none).is_none());
}
