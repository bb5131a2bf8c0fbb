// Made by `make package` of crates/tests_math/src/radians.rt, which is proved: changes go there.

//! Known sines and cosines of angles in radians, and angles of points, computed apart with whole numbers of 90 digits,
//! and each call at a concrete type.

use crate::num::{FixedI8, FixedI32};
use crate::tests::math::found::{
    Found, Left, check, check_fit, check_left, checked_bits, flagged_bits, found_of, short_bits,
};
use crate::tests::math::turns_fitting::sine_and_cosine_in_radians;
use crate::turns::{
    CheckedRadians, OverflowingRadians, SaturatingRadians, WrappingRadians, atan2_of, cos_of,
    sin_cos_of, sin_of,
};
use crate::word::Side;

fn of_8_bits(a: i8, frac: u32) -> [Found; 2] {
    if frac <= 8 {
        let (sine, cosine) = (sin_of(a, frac), cos_of(a, frac));
        [
            Some((sine.wrapped as i128, sine.side)),
            Some((cosine.wrapped as i128, cosine.side)),
        ]
    } else {
        [None, None]
    }
}

fn of_unsigned_8_bits(a: u8, frac: u32) -> [Found; 2] {
    if frac <= 8 {
        let (sine, cosine) = sin_cos_of(a, frac);
        [
            Some((sine.wrapped as i128, sine.side)),
            Some((cosine.wrapped as i128, cosine.side)),
        ]
    } else {
        [None, None]
    }
}

fn of_16_bits(a: i16, frac: u32) -> [Found; 2] {
    if frac <= 16 {
        let (sine, cosine) = sin_cos_of(a, frac);
        [
            Some((sine.wrapped as i128, sine.side)),
            Some((cosine.wrapped as i128, cosine.side)),
        ]
    } else {
        [None, None]
    }
}

fn of_32_bits(a: i32, frac: u32) -> [Found; 2] {
    if frac <= 32 {
        let (sine, cosine) = (sin_of(a, frac), cos_of(a, frac));
        [
            Some((sine.wrapped as i128, sine.side)),
            Some((cosine.wrapped as i128, cosine.side)),
        ]
    } else {
        [None, None]
    }
}

fn of_64_bits(a: i64, frac: u32) -> [Found; 2] {
    if frac <= 64 {
        [found_of(sin_of(a, frac)), found_of(cos_of(a, frac))]
    } else {
        [None, None]
    }
}

/// Asserts the sines and the cosines of rows of bits and fraction.
fn check_sines(rows: &[(i32, u32, i128, i128)]) {
    for &(a, frac, wanted_sine, wanted_cosine) in rows {
        let operands = [a as i128, frac as i128, 0];
        let [sine, cosine] = of_32_bits(a, frac);
        check_fit("sine of radians", operands, sine, wanted_sine);
        check_fit("cosine of radians", operands, cosine, wanted_cosine);
    }
}

#[test]
fn sines_and_cosines_of_radians() {
    check_sines(&[
        (0, 16, 0, 65536),
        (1, 16, 1, 65536),
        (65536, 16, 55147, 35409),
        (102944, 16, 65536, 0),
        (205887, 16, 0, -65536),
        (411775, 16, 0, 65536),
        (12345, 16, 12272, 64377),
        (-12345, 16, -12272, 64377),
        (i32::MAX, 16, 60808, 24442),
        (i32::MIN, 16, -60808, 24441),
        (i32::MAX, 0, -1, -1),
        (i32::MIN, 0, 1, 0),
        (355, 0, 0, -1),
        (1000000, 30, 1000000, 1073741358),
        (123456789, 28, 119150336, 240542702),
        (i32::MAX, 24, 12097006, -11624862),
        (i32::MIN, 30, -976350678, -446834263),
    ]);
}

/// Asserts the same in 64 bits.
fn check_long_sines(rows: &[(i64, u32, i128, i128)]) {
    for &(a, frac, wanted_sine, wanted_cosine) in rows {
        let operands = [a as i128, frac as i128, 0];
        let [sine, cosine] = of_64_bits(a, frac);
        check_fit("sine of 64 bits", operands, sine, wanted_sine);
        check_fit("cosine of 64 bits", operands, cosine, wanted_cosine);
    }
}

#[test]
fn long_sines_and_cosines_of_radians() {
    check_long_sines(&[
        (6746518852, 32, 4294967296, 0),
        (-6746518852, 32, -4294967296, 0),
        (13493037705, 32, 0, -4294967296),
        (i64::MAX, 0, 1, 1),
        (i64::MIN, 0, -1, 0),
        (i64::MAX, 16, -4251, -65398),
        (i64::MAX, 32, -4171745440, 1021412777),
        (i64::MIN, 32, 4171745439, 1021412778),
        (i64::MAX, 48, 261168339838519, 104972666824542),
        (i64::MIN, 48, -261168339838519, 104972666824541),
        (6134899525417045, 0, 0, -1),
        (1234567890123456789, 32, 4292020601, -159069917),
        (-1234567890123456789, 40, -559327683074, -946614157174),
        (442136281288205, 48, 281474976687912, 3578213572),
        (
            -987654321098765432,
            56,
            -65476545644434992,
            30085192853080545,
        ),
    ]);
}

/// Asserts the same in 16 bits.
fn check_middle_sines(rows: &[(i16, u32, i128, i128)]) {
    for &(a, frac, wanted_sine, wanted_cosine) in rows {
        let operands = [a as i128, frac as i128, 0];
        let [sine, cosine] = of_16_bits(a, frac);
        check_fit("sine of 16 bits", operands, sine, wanted_sine);
        check_fit("cosine of 16 bits", operands, cosine, wanted_cosine);
    }
}

#[test]
fn middle_sines_and_cosines_of_radians() {
    check_middle_sines(&[
        (402, 8, 256, 0),
        (-402, 8, -256, 0),
        (i16::MAX, 8, 185, -177),
        (i16::MIN, 8, -185, -177),
        (i16::MAX, 0, 0, 1),
        (i16::MIN, 0, -1, 0),
        (-12345, 12, -522, -4063),
        (30000, 14, 15832, -4216),
        (i16::MIN, 15, -27573, 17705),
    ]);
}

/// Asserts the same in 8 bits, with the sides.
fn check_short_sines(rows: &[(i8, u32, (i128, Side), (i128, Side))]) {
    for &(a, frac, wanted_sine, wanted_cosine) in rows {
        let operands = [a as i128, frac as i128, 0];
        let [sine, cosine] = of_8_bits(a, frac);
        check("sine of 8 bits", operands, sine, wanted_sine);
        check("cosine of 8 bits", operands, cosine, wanted_cosine);
    }
}

#[test]
fn short_sines_and_cosines_of_radians() {
    check_short_sines(&[
        (0, 4, (0, Side::Fits), (16, Side::Fits)),
        (25, 4, (16, Side::Fits), (0, Side::Fits)),
        (-25, 4, (-16, Side::Fits), (0, Side::Fits)),
        (i8::MAX, 4, (16, Side::Fits), (-1, Side::Fits)),
        (i8::MIN, 4, (-16, Side::Fits), (-2, Side::Fits)),
        (i8::MIN, 0, (-1, Side::Fits), (-1, Side::Fits)),
        (i8::MAX, 7, (107, Side::Fits), (70, Side::Fits)),
        (0, 7, (0, Side::Fits), (-128, Side::Above)),
        (i8::MIN, 8, (-123, Side::Fits), (-31, Side::Above)),
    ]);
}

/// Asserts the same without a sign.
fn check_unsigned_sines(rows: &[(u8, u32, (i128, Side), (i128, Side))]) {
    for &(a, frac, wanted_sine, wanted_cosine) in rows {
        let operands = [a as i128, frac as i128, 0];
        let [sine, cosine] = of_unsigned_8_bits(a, frac);
        check("unsigned sine", operands, sine, wanted_sine);
        check("unsigned cosine", operands, cosine, wanted_cosine);
    }
}

#[test]
fn unsigned_sines_and_cosines_of_radians() {
    check_unsigned_sines(&[
        (0, 8, (0, Side::Fits), (0, Side::Above)),
        (64, 4, (244, Side::Below), (246, Side::Below)),
        (50, 4, (0, Side::Fits), (240, Side::Below)),
        (u8::MAX, 0, (255, Side::Below), (255, Side::Below)),
        (u8::MAX, 7, (117, Side::Fits), (204, Side::Below)),
        (u8::MAX, 8, (215, Side::Fits), (139, Side::Fits)),
    ]);
}

/// The sine and the cosine by each policy: checked, overflowing, saturating, wrapping.
type CallsOfBoth<N> = (Option<(N, N)>, ((N, bool), (N, bool)), (N, N), (N, N));

/// The calls of both at one number.
fn calls_of_both<const F: u32>(number: FixedI8<F>) -> CallsOfBoth<FixedI8<F>> {
    (
        number.checked_sin_cos(),
        number.overflowing_sin_cos(),
        number.saturating_sin_cos(),
        number.wrapping_sin_cos(),
    )
}

/// The calls of each policy at one point: the sine and the cosine of y radians, the angle of the point, and at last
/// the calls of both.
fn calls<const F: u32>(
    y: FixedI8<F>,
    x: FixedI8<F>,
) -> (
    (
        [Option<FixedI8<F>>; 3],
        [(FixedI8<F>, bool); 3],
        [FixedI8<F>; 3],
        [FixedI8<F>; 3],
    ),
    CallsOfBoth<FixedI8<F>>,
) {
    let each = (
        [y.checked_sin(), y.checked_cos(), y.checked_atan2(x)],
        [
            y.overflowing_sin(),
            y.overflowing_cos(),
            y.overflowing_atan2(x),
        ],
        [
            y.saturating_sin(),
            y.saturating_cos(),
            y.saturating_atan2(x),
        ],
        [y.wrapping_sin(), y.wrapping_cos(), y.wrapping_atan2(x)],
    );
    (each, calls_of_both(y))
}

/// What the calls of both leave: whether checked is none, overflowing with the verdict on the cosine, saturating,
/// wrapping.
fn bits_of_both<const F: u32>(
    both: CallsOfBoth<FixedI8<F>>,
) -> (bool, (i8, i8, bool), (i8, i8), (i8, i8)) {
    let (checked, (sine, (cosine, past)), saturating, wrapping) = both;
    (
        checked.is_none(),
        (sine.0.bits, cosine.bits, past),
        (saturating.0.bits, saturating.1.bits),
        (wrapping.0.bits, wrapping.1.bits),
    )
}

/// What those calls leave of numbers of 8 bits, by their bits: checked, overflowing, saturating, wrapping, and both.
fn left_by_calls<const F: u32>(y: i8, x: i8) -> (Left, (bool, (i8, i8, bool), (i8, i8), (i8, i8))) {
    let (each, both) = calls(FixedI8::<F> { bits: y }, FixedI8::<F> { bits: x });
    let (checked, overflowing, saturating, wrapping) = each;
    let each = (
        checked_bits(checked),
        flagged_bits(overflowing),
        short_bits(saturating),
        short_bits(wrapping),
    );
    (each, bits_of_both(both))
}

#[test]
fn radian_calls() {
    let (left, _) = left_by_calls::<4>(-20, 20);
    check_left(
        left,
        (
            [Some(-15), Some(5), Some(-13)],
            [(-15, false), (5, false), (-13, false)],
            [-15, 5, -13],
            [-15, 5, -13],
        ),
    );
}

#[test]
fn radian_calls_at_angles() {
    let (left, _) = left_by_calls::<4>(48, -64);
    check_left(
        left,
        (
            [Some(2), Some(-16), Some(40)],
            [(2, false), (-16, false), (40, false)],
            [2, -16, 40],
            [2, -16, 40],
        ),
    );
    let none = FixedI8::<4> { bits: 0 };
    assert!(none.checked_atan2(none).is_none());
}

/// The angle on the axis above the origin does not fit without integer bits.
#[test]
fn radian_calls_past_the_end() {
    let (left, _) = left_by_calls::<7>(32, 0);
    check_left(
        left,
        (
            [Some(32), Some(124), None],
            [(32, false), (124, false), (-55, true)],
            [32, 124, 127],
            [32, 124, -55],
        ),
    );
}

/// The cosine of 0 does not fit without integer bits.
#[test]
fn radian_calls_of_both() {
    let (_, small) = left_by_calls::<7>(0, 1);
    assert!(small == (true, (0, -128, true), (0, 127), (0, -128)));
    let (_, great) = left_by_calls::<7>(127, 127);
    assert!(great == (false, (107, 70, false), (107, 70), (107, 70)));
    let (sine, cosine) = sine_and_cosine_in_radians(FixedI32::<16> { bits: 12345 });
    assert!(sine.bits == 12272 && cosine.bits == 64377);
}

/// The angle of a point other than the origin.
fn angle_of_8_bits(y: i8, x: i8, frac: u32) -> Found {
    if 8 < frac {
        return None;
    }
    let outcome = if x != 0 {
        atan2_of(y, x, frac)
    } else if y != 0 {
        atan2_of(y, 0, frac)
    } else {
        return None;
    };
    Some((outcome.wrapped as i128, outcome.side))
}

fn angle_of_unsigned_8_bits(y: u8, x: u8, frac: u32) -> Found {
    if 8 < frac {
        return None;
    }
    let outcome = if x != 0 {
        atan2_of(y, x, frac)
    } else if y != 0 {
        atan2_of(y, 0, frac)
    } else {
        return None;
    };
    Some((outcome.wrapped as i128, outcome.side))
}

fn angle_of_16_bits(y: i16, x: i16, frac: u32) -> Found {
    if 16 < frac {
        return None;
    }
    let outcome = if x != 0 {
        atan2_of(y, x, frac)
    } else if y != 0 {
        atan2_of(y, 0, frac)
    } else {
        return None;
    };
    Some((outcome.wrapped as i128, outcome.side))
}

fn angle_of_32_bits(y: i32, x: i32, frac: u32) -> Found {
    if 32 < frac {
        return None;
    }
    let outcome = if x != 0 {
        atan2_of(y, x, frac)
    } else if y != 0 {
        atan2_of(y, 0, frac)
    } else {
        return None;
    };
    Some((outcome.wrapped as i128, outcome.side))
}

fn angle_of_64_bits(y: i64, x: i64, frac: u32) -> Found {
    if 64 < frac {
        return None;
    }
    let outcome = if x != 0 {
        atan2_of(y, x, frac)
    } else if y != 0 {
        atan2_of(y, 0, frac)
    } else {
        return None;
    };
    found_of(outcome)
}

fn angle_of_unsigned_64_bits(y: u64, x: u64, frac: u32) -> Found {
    if 64 < frac {
        return None;
    }
    let outcome = if x != 0 {
        atan2_of(y, x, frac)
    } else if y != 0 {
        atan2_of(y, 0, frac)
    } else {
        return None;
    };
    Some((outcome.wrapped as i128, outcome.side))
}

/// Asserts the angles of rows of a point and its fraction.
fn check_angles(rows: &[(i32, i32, u32, i128)]) {
    for &(y, x, frac, wanted) in rows {
        let operands = [y as i128, x as i128, frac as i128];
        check_fit(
            "angle in radians",
            operands,
            angle_of_32_bits(y, x, frac),
            wanted,
        );
    }
}

#[test]
fn angles_in_radians() {
    check_angles(&[
        (0, 65536, 16, 0),
        (65536, 0, 16, 102944),
        (-65536, 0, 16, -102944),
        (0, -65536, 16, 205887),
        (1, 1, 16, 51472),
        (-2, -1, 16, -133329),
        (3, 4, 28, 172738514),
        (12345, -67890, 24, 49689411),
        (1, i32::MIN, 29, 1686629713),
        (-1, i32::MIN, 29, -1686629713),
        (i32::MAX, i32::MAX, 31, 1686629713),
        (i32::MIN, i32::MIN, 29, -1264972285),
        (i32::MIN, 1, 30, -1686629713),
        (0, i32::MIN, 29, 1686629713),
        (-7, 3, 0, -1),
        (1, 1000000007, 32, 4),
    ]);
}

/// Asserts the same in 64 bits.
fn check_long_angles(rows: &[(i64, i64, u32, i128)]) {
    for &(y, x, frac, wanted) in rows {
        let operands = [y as i128, x as i128, frac as i128];
        check_fit(
            "angle of 64 bits",
            operands,
            angle_of_64_bits(y, x, frac),
            wanted,
        );
    }
}

#[test]
fn long_angles_in_radians() {
    check_long_angles(&[
        (0, 1, 64, 0),
        (0, -1, 32, 13493037705),
        (0, i64::MIN, 57, 452751216129820178),
        (1, 0, 48, 442139859501778),
        (-1, 0, 48, -442139859501778),
        (1, 1, 56, 56593902016227522),
        (i64::MAX, i64::MIN, 56, 169781706048682567),
        (i64::MIN, i64::MIN, 57, -339563412097365133),
        (1, -9223372036854775807, 56, 226375608064910089),
        (-1, -9223372036854775807, 56, -226375608064910089),
        (1, 1099511627776, 56, 65536),
        (1234567890123456789, -987654321, 40, 1727108827058),
        (-5, i64::MAX, 32, 0),
        (123456789, 987654321987, 57, 18014398233498),
        (-3, 2, 0, -1),
        (1, i64::MIN, 0, 3),
    ]);
}

/// Asserts the same in 16 bits, with the sides.
fn check_middle_angles(rows: &[(i16, i16, u32, (i128, Side))]) {
    for &(y, x, frac, wanted) in rows {
        let operands = [y as i128, x as i128, frac as i128];
        check(
            "angle of 16 bits",
            operands,
            angle_of_16_bits(y, x, frac),
            wanted,
        );
    }
}

#[test]
fn middle_angles_in_radians() {
    check_middle_angles(&[
        (0, -1, 13, (25736, Side::Fits)),
        (0, -1, 14, (-14064, Side::Above)),
        (1, i16::MAX, 16, (2, Side::Fits)),
        (-1, i16::MIN, 12, (-12868, Side::Fits)),
        (i16::MAX, i16::MIN, 12, (9651, Side::Fits)),
        (i16::MIN, i16::MAX, 14, (-12868, Side::Fits)),
        (12345, 6789, 14, (17498, Side::Fits)),
        (-3, -2, 0, (-2, Side::Fits)),
        (1, 1, 16, (-14064, Side::Above)),
        (1, 0, 16, (-28128, Side::Above)),
    ]);
}

/// Asserts the same in 8 bits, with the sides.
fn check_short_angles(rows: &[(i8, i8, u32, (i128, Side))]) {
    for &(y, x, frac, wanted) in rows {
        let operands = [y as i128, x as i128, frac as i128];
        check(
            "angle of 8 bits",
            operands,
            angle_of_8_bits(y, x, frac),
            wanted,
        );
    }
}

#[test]
fn short_angles_in_radians() {
    check_short_angles(&[
        (0, 1, 8, (0, Side::Fits)),
        (1, 0, 4, (25, Side::Fits)),
        (0, -1, 4, (50, Side::Fits)),
        (-1, 0, 4, (-25, Side::Fits)),
        (0, i8::MIN, 0, (3, Side::Fits)),
        (48, -64, 4, (40, Side::Fits)),
        (-48, -64, 4, (-40, Side::Fits)),
        (3, 7, 5, (13, Side::Fits)),
        (-1, i8::MAX, 8, (-2, Side::Fits)),
        (1, i8::MIN, 5, (100, Side::Fits)),
        (1, 0, 7, (-55, Side::Above)),
        (0, -1, 7, (-110, Side::Above)),
        (-1, -1, 6, (105, Side::Below)),
        (-1, 1, 8, (55, Side::Below)),
        (i8::MAX, i8::MAX, 0, (1, Side::Fits)),
        (i8::MIN, i8::MIN, 4, (-38, Side::Fits)),
    ]);
}

/// Asserts the same in 8 bits without a sign.
fn check_unsigned_angles(rows: &[(u8, u8, u32, (i128, Side))]) {
    for &(y, x, frac, wanted) in rows {
        let operands = [y as i128, x as i128, frac as i128];
        check(
            "unsigned angle",
            operands,
            angle_of_unsigned_8_bits(y, x, frac),
            wanted,
        );
    }
}

#[test]
fn unsigned_angles_in_radians() {
    check_unsigned_angles(&[
        (0, 1, 8, (0, Side::Fits)),
        (1, 0, 7, (201, Side::Fits)),
        (1, 0, 8, (146, Side::Above)),
        (u8::MAX, u8::MAX, 8, (201, Side::Fits)),
        (1, u8::MAX, 8, (1, Side::Fits)),
        (u8::MAX, 1, 0, (2, Side::Fits)),
        (200, 100, 6, (71, Side::Fits)),
    ]);
}

/// Asserts the same in 64 bits without a sign.
fn check_long_unsigned_angles(rows: &[(u64, u64, u32, i128)]) {
    for &(y, x, frac, wanted) in rows {
        let operands = [y as i128, x as i128, frac as i128];
        check_fit(
            "unsigned angle of 64 bits",
            operands,
            angle_of_unsigned_64_bits(y, x, frac),
            wanted,
        );
    }
}

#[test]
fn long_unsigned_angles_in_radians() {
    check_long_unsigned_angles(&[
        (u64::MAX, 1, 32, 6746518852),
        (u64::MAX, u64::MAX, 56, 56593902016227522),
        (1, 3, 57, 46369141660382985),
        (0, 1, 64, 0),
    ]);
}

/// Whether an angle with 64 fraction bits lies within `1/2 + 2^4` units beside the exact one, of which this is the
/// nearest unit.
fn is_near(y: u64, x: u64, nearest: i128) -> bool {
    match angle_of_unsigned_64_bits(y, x, 64) {
        Some((units, Side::Fits)) => units.abs_diff(nearest) <= 17,
        _ => false,
    }
}

/// Asserts that angles are near the nearest units.
fn check_fine_angles(rows: &[(u64, u64, i128)]) {
    for &(y, x, nearest) in rows {
        assert!(is_near(y, x, nearest), "fine angle of {y} and {x}");
    }
}

#[test]
fn fine_angles_in_radians() {
    check_fine_angles(&[
        (1, u64::MAX, 1),
        (1, 4294967296, 4294967296),
        (1, 1048576, 17592186044411),
        (1, 1, 14488038916154245685),
        (3, 4, 11870500265058044196),
    ]);
}
