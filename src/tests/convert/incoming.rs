// Made by `make package` of crates/tests_convert/src/incoming.rt, which is proved: changes go there.

//! Numbers from floats.

use crate::cast::{FromNum, ToNum};
use crate::float::{Binary, from_float_of, from_float_round_of, saturating_float_of};
use crate::num::FixedI32;
use crate::word::{Rounding, checked_of, overflowing_of};

/// The number's bits, where the float is one.
fn bits_of(float: f64) -> Option<i32> {
    match FixedI32::<16>::checked_from_num(float) {
        Some(number) => Some(number.bits),
        None => None,
    }
}

#[test]
fn worked_numbers() {
    for (float, bits) in [
        (1.5, Some(98304)),
        (-1.5, Some(-98304)),
        (-0.0, Some(0)),
        (5e-324, Some(0)),
        // a unit is 2^-16, and ties go to the even one
        (0.00000762939453125, Some(0)),
        (0.00002288818359375, Some(2)),
        (-0.00002288818359375, Some(-2)),
        (0.000007629394531250001, Some(1)),
        (32767.99999237, Some(i32::MAX)),
        (32767.99999237060546875, None),
        (-32768.00000762939453125, Some(i32::MIN)),
        (1.7976931348623157e308, None),
        (f64::NEG_INFINITY, None),
        (f64::NAN, None),
    ] {
        assert!(bits_of(float) == bits, "wanted {bits:?}");
    }
}

/// The wrapped bits and the verdict, of a finite float.
fn wrapped<X: Binary>(x: X) -> Option<(i8, bool)> {
    Some(overflowing_of(from_float_of(x, 4)?))
}

#[test]
fn wrapped_floats() {
    assert!(wrapped(8.5_f32) == Some((-120, true)));
    assert!(wrapped(-7.9375_f64) == Some((-127, false)));
    assert!(wrapped(f32::NAN).is_none());
}

#[test]
fn by_policy() {
    let held: i64 = saturating_float_of(1e19_f32, 0, Rounding::Even);
    assert!(held == i64::MAX);
    let least: u64 = saturating_float_of(f32::NEG_INFINITY, 64, Rounding::Even);
    assert!(least == 0);
    let most: u64 = saturating_float_of(f64::INFINITY, 64, Rounding::Even);
    assert!(most == u64::MAX);
    assert!((-2.5).checked_to_num::<i32>() == Some(-2));
}

/// A float in units of a quarter, where it fits.
fn in_quarters(x: f32, rounding: Rounding) -> Option<i16> {
    checked_of(from_float_round_of(x, 2, rounding)?)
}

/// A float as a whole number, where it fits.
fn in_units(x: f64, rounding: Rounding) -> Option<i16> {
    x.checked_to_num_round::<i16>(rounding)
}

#[test]
fn by_rounding() {
    for (rounding, number) in [
        (Rounding::Down, Some(-6)),
        (Rounding::Zero, Some(-5)),
        (Rounding::Even, Some(-5)),
    ] {
        let (quarters, units) = (in_quarters(-1.3125, rounding), in_units(-5.25, rounding));
        assert!(
            quarters == number && units == number,
            "{rounding:?}: {quarters:?} and {units:?}"
        );
    }
}
