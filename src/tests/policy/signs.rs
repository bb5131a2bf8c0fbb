// Made by `make package` of crates/tests_policy/src/signs.rt, which is proved: changes go there.

//! The calls of signed or of unsigned numbers alone, and shifts, each through its bound.

use super::plain::{Forms, all_fit, all_stand, forms, forms_of, shown, value};
use crate::num::{FixedI8, FixedU8};
use crate::policy::{
    Checked, CheckedSigned, CheckedUnsigned, Overflowing, OverflowingSigned, OverflowingUnsigned,
    Wrapping, WrappingSigned, WrappingUnsigned,
};
use crate::strict::{
    SaturatingSigned, SaturatingUnsigned, Strict, StrictSigned, StrictUnsigned, Unwrapped,
    UnwrappedSigned, UnwrappedUnsigned,
};

/// The four magnitudes.
fn magnitudes<N>(a: N) -> Forms
where
    N: CheckedSigned + OverflowingSigned + WrappingSigned + SaturatingSigned,
{
    shown(
        a.checked_abs(),
        a.overflowing_abs(),
        a.wrapping_abs(),
        a.saturating_abs(),
    )
}

/// The four signs.
fn signs<N>(a: N) -> Forms
where
    N: CheckedSigned + OverflowingSigned + WrappingSigned + SaturatingSigned,
{
    shown(
        a.checked_signum(),
        a.overflowing_signum(),
        a.wrapping_signum(),
        a.saturating_signum(),
    )
}

/// The magnitude and the sign, which fit, by strict and unwrapped calls.
fn fitting<N: StrictSigned + UnwrappedSigned>(a: N) -> [i128; 4] {
    [
        value(a.strict_abs()),
        value(a.unwrapped_abs()),
        value(a.strict_signum()),
        value(a.unwrapped_signum()),
    ]
}

/// The four signs of bits that are all behind the point.
fn signs_below_one(bits: i8) -> Forms {
    signs(FixedI8::<8> { bits })
}

#[test]
fn magnitudes_and_signs() {
    let least = magnitudes(FixedI8::<4> { bits: -128 });
    let one = signs(FixedI8::<7> { bits: 64 });
    all_stand(&[
        (
            "the least number's magnitude",
            least,
            forms_of(false, -128, 127),
        ),
        ("one, which is no number", one, forms_of(false, -128, 127)),
        (
            "one, with no integer bits",
            signs_below_one(64),
            forms_of(false, 0, 127),
        ),
        ("minus one", signs_below_one(-128), forms_of(false, 0, -128)),
    ]);
    let found = fitting(FixedI8::<4> { bits: -127 });
    assert!(found == [127, 127, -16, -16], "of -127: {found:?}");
}

/// The sums and differences of a signed and an unsigned number.
fn unsigned_sums<N>(a: N, b: N::Unsigned) -> [Forms; 2]
where
    N: CheckedSigned + OverflowingSigned + WrappingSigned + SaturatingSigned,
{
    let sum = shown(
        a.checked_add_unsigned(b),
        a.overflowing_add_unsigned(b),
        a.wrapping_add_unsigned(b),
        a.saturating_add_unsigned(b),
    );
    let difference = shown(
        a.checked_sub_unsigned(b),
        a.overflowing_sub_unsigned(b),
        a.wrapping_sub_unsigned(b),
        a.saturating_sub_unsigned(b),
    );
    [sum, difference]
}

#[test]
fn sums_of_a_signed_and_an_unsigned_number() {
    for (a, b, sum, difference) in [
        (-128_i8, 255_u8, (true, 127), (false, -127)),
        (-1, 129, (false, -128), (false, 126)),
        (127, 255, (false, 126), (true, -128)),
        (126, 255, (false, 125), (false, 127)),
        (-128, 0, (true, -128), (true, -128)),
        (0, 127, (true, 127), (true, -127)),
        (-100, 100, (true, 0), (false, 56)),
    ] {
        let found = unsigned_sums(FixedI8::<4> { bits: a }, FixedU8::<4> { bits: b });
        let greatest = if sum.0 { sum.1 } else { 127 };
        let least = if difference.0 { difference.1 } else { -128 };
        let sum = forms_of(sum.0, sum.1, greatest);
        let difference = forms_of(difference.0, difference.1, least);
        assert!(found == [sum, difference], "{a} and {b}");
    }
}

/// The sums and differences of an unsigned and a signed number.
fn signed_sums<N>(a: N, b: N::Signed) -> [Forms; 2]
where
    N: CheckedUnsigned + OverflowingUnsigned + WrappingUnsigned + SaturatingUnsigned,
{
    let sum = shown(
        a.checked_add_signed(b),
        a.overflowing_add_signed(b),
        a.wrapping_add_signed(b),
        a.saturating_add_signed(b),
    );
    let difference = shown(
        a.checked_sub_signed(b),
        a.overflowing_sub_signed(b),
        a.wrapping_sub_signed(b),
        a.saturating_sub_signed(b),
    );
    [sum, difference]
}

#[test]
fn sums_of_an_unsigned_and_a_signed_number() {
    for (a, b, sum, difference) in [
        (255_u8, -128_i8, (127, 127), (127, 255)),
        (255, 127, (126, 255), (128, 128)),
        (127, -128, (255, 0), (255, 255)),
        (0, 127, (127, 127), (129, 0)),
        (0, -128, (128, 0), (128, 128)),
        (128, 127, (255, 255), (1, 1)),
        (32, -48, (240, 0), (80, 80)),
    ] {
        let found = signed_sums(FixedU8::<4> { bits: a }, FixedI8::<4> { bits: b });
        let sum = forms(sum.0, sum.1);
        let difference = forms(difference.0, difference.1);
        assert!(found == [sum, difference], "{a} and {b}");
    }
}

/// A sum and a difference that fit, by strict and unwrapped calls.
fn fitting_unsigned_sums<N: StrictSigned + UnwrappedSigned>(
    a: N,
    c: N,
    b: N::Unsigned,
) -> [i128; 4] {
    [
        value(a.strict_add_unsigned(b)),
        value(a.unwrapped_add_unsigned(b)),
        value(c.strict_sub_unsigned(b)),
        value(c.unwrapped_sub_unsigned(b)),
    ]
}

/// The same with a signed summand.
fn fitting_signed_sums<N: StrictUnsigned + UnwrappedUnsigned>(
    a: N,
    c: N,
    b: N::Signed,
) -> [i128; 4] {
    [
        value(a.strict_add_signed(b)),
        value(a.unwrapped_add_signed(b)),
        value(c.strict_sub_signed(b)),
        value(c.unwrapped_sub_signed(b)),
    ]
}

#[test]
fn sums_that_fit() {
    let (least, most) = (FixedI8::<4> { bits: -128 }, FixedI8::<4> { bits: 127 });
    let all = FixedU8::<4> { bits: 255 };
    let signed = fitting_unsigned_sums(least, most, all);
    let unsigned = fitting_signed_sums(all, FixedU8::<4> { bits: 127 }, least);
    all_fit(&[
        ("of a signed number", signed, [127, 127, -128, -128]),
        ("of an unsigned number", unsigned, [127, 127, 255, 255]),
    ]);
}

/// The checked and the wrapping power of two.
fn powers<N: CheckedUnsigned + WrappingUnsigned>(a: N) -> (Option<i128>, i128) {
    let checked = match a.checked_next_power_of_two() {
        Some(power) => Some(value(power)),
        None => None,
    };
    (checked, value(a.wrapping_next_power_of_two()))
}

/// The power of two, which fits, by the strict and the unwrapped call.
fn fitting_powers<N: StrictUnsigned + UnwrappedUnsigned>(a: N) -> [i128; 2] {
    [
        value(a.strict_next_power_of_two()),
        value(a.unwrapped_next_power_of_two()),
    ]
}

#[test]
fn powers_of_two() {
    for (bits, checked, left) in [(0_u8, Some(1), 1), (17, Some(32), 32), (200, None, 0)] {
        let found = powers(FixedU8::<4> { bits });
        assert!(found == (checked, left), "{bits}");
    }
    let above = fitting_powers(FixedU8::<4> { bits: 17 });
    let least = fitting_powers(FixedU8::<4> { bits: 0 });
    assert!([above, least] == [[32; 2], [1; 2]], "17 and 0");
}

/// The shifts up and down, checked, overflowing and wrapping; none is saturating, and the wrapping one stands there.
fn shifts<N: Checked + Overflowing + Wrapping>(a: N, by: u32) -> [Forms; 2] {
    let (up, down) = (a.wrapping_shl(by), a.wrapping_shr(by));
    [
        shown(a.checked_shl(by), a.overflowing_shl(by), up, up),
        shown(a.checked_shr(by), a.overflowing_shr(by), down, down),
    ]
}

/// The shifts by less than the width, strict and unwrapped.
fn fitting_shifts<N: Strict + Unwrapped>(a: N, by: u32) -> [i128; 4] {
    [
        value(a.strict_shl(by)),
        value(a.unwrapped_shl(by)),
        value(a.strict_shr(by)),
        value(a.unwrapped_shr(by)),
    ]
}

#[test]
fn shifted() {
    for (bits, by, fits, up, down) in [
        (16_i8, 7, true, 0, 0),
        (16, 8, false, 16, 16),
        (16, 9, false, 32, 8),
        (-3, 1, true, -6, -2),
        (-3, 8, false, -3, -3),
        (-3, 9, false, -6, -2),
    ] {
        let found = shifts(FixedI8::<4> { bits }, by);
        let wanted = [forms_of(fits, up, up), forms_of(fits, down, down)];
        assert!(found == wanted, "{bits} by {by}");
    }
    let above = fitting_shifts(FixedI8::<4> { bits: 48 }, 1);
    let below = fitting_shifts(FixedI8::<4> { bits: -3 }, 1);
    let unsigned = fitting_shifts(FixedU8::<4> { bits: 200 }, 1);
    let most = fitting_shifts(FixedU8::<4> { bits: 255 }, 7);
    all_fit(&[
        ("48 by 1", above, [96, 96, 24, 24]),
        ("-3 by 1", below, [-6, -6, -2, -2]),
        ("200 by 1, without a sign", unsigned, [144, 144, 100, 100]),
        ("255 by 7, without a sign", most, [128, 128, 1, 1]),
    ]);
}
