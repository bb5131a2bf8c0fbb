// Made by `make package` of crates/tests_convert/src/outgoing.rt, which is proved: changes go there.

//! Floats from numbers.

use crate::cast::{FromNum, Order, ToFloat, ToNum};
use crate::num::{FixedI8, FixedI64, FixedU64};
use std::cmp::Ordering;

fn float_of(bits: i64) -> f64 {
    FixedI64::<64> { bits }.to_float::<f64>()
}

#[test]
fn worked_floats() {
    for (bits, float) in [
        (0, 0.0),
        (1, 5.421010862427522e-20),
        (-3, -1.6263032587282567e-19),
        (i64::MIN, -0.5),
        (i64::MAX, 0.5),
        // 2^53 + 1 and 2^53 + 3 lie half way: the even one
        (9007199254740993, 0.00048828125),
        (9007199254740995, 0.00048828125000000022),
    ] {
        assert!(float_of(bits) == float, "of {bits}");
    }
}

fn narrow_float_of(bits: u64) -> f32 {
    FixedU64::<0> { bits }.to_float::<f32>()
}

#[test]
fn narrow_floats() {
    assert!(FixedI8::<4> { bits: -127 }.to_float::<f32>() == -7.9375);
    assert!((-3_i16).to_float::<f64>() == -3.0);
    assert!(narrow_float_of(u64::MAX) == 18446744073709551616.0);
    assert!(narrow_float_of(16777217) == 16777216.0);
}

/// Whether the number is what its narrow float is.
fn comes_back(number: FixedI8<8>) -> bool {
    FixedI8::checked_from_num(number.to_float::<f32>()) == Some(number)
}

/// Whether the number is what its wide float is.
fn comes_back_wide(number: FixedI8<8>) -> bool {
    FixedI8::checked_from_num(number.to_float::<f64>()) == Some(number)
}

#[test]
fn there_and_back() {
    for byte in 0..=255_u8 {
        let number = FixedI8::<8> {
            bits: byte.cast_signed(),
        };
        let both = comes_back(number) && comes_back_wide(number);
        assert!(both, "{byte}");
    }
}

#[test]
fn floats_as_targets() {
    let number = FixedI8::<4> { bits: -24 };
    assert!(number.to_num::<f64>() == -1.5);
    assert!(number.checked_to_num::<f32>() == Some(-1.5));
    assert!(number.overflowing_to_num::<f64>() == (-1.5, false));
    assert!(number.checked_to_num::<i32>() == Some(-2));
}

/// How -1.5 stands to the float.
fn order_of(float: f64) -> Option<Ordering> {
    FixedI8::<4> { bits: -24 }.compare_float(float)
}

#[test]
fn orders_beside_floats() {
    for (float, order) in [
        (-1.5, Some(Ordering::Equal)),
        (-1.5000000000000002, Some(Ordering::Greater)),
        (-1.4999999999999998, Some(Ordering::Less)),
        (-0.0, Some(Ordering::Less)),
        (1.7976931348623157e308, Some(Ordering::Less)),
        (f64::INFINITY, Some(Ordering::Less)),
        (f64::NEG_INFINITY, Some(Ordering::Greater)),
        (f64::NAN, None),
    ] {
        assert!(order_of(float) == order, "wanted {order:?}");
    }
}
