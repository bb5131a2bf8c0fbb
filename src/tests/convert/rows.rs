// Made by `make package` of crates/tests_convert/src/rows.rt, which is proved: changes go there.

//! Conversions, roundings and comparisons on bits.

use crate::convert::{
    Castable, ceil_of, compare_of, convert_of, convert_round_of, floor_of, frac_of, mul_into_of,
    round_of, round_ties_even_of,
};
use crate::word::{Outcome, Rounding, Side};
use std::cmp::Ordering;

/// What is left of a number, and the side where it lies.
type Found = (i128, Side);

/// That this is left of the number; the message names the operation and the operands.
fn check(what: &str, operands: [i128; 3], found: Found, wanted: Found) {
    assert!(
        found == wanted,
        "{what} of {operands:?}: {found:?}, not {wanted:?}"
    );
}

/// The product of a sample of 8 fraction bits and a coefficient of 16, in units of 2^-16.
fn product(sample: i16, coefficient: i32, rounding: Rounding) -> Found {
    let outcome = mul_into_of::<i16, i32, i32>(sample, 8, coefficient, 16, 16, rounding);
    (outcome.wrapped as i128, outcome.side)
}

#[test]
fn products() {
    for (a, b, rounding, wrapped, side) in [
        (384, 147456, Rounding::Down, 221184, Side::Fits),
        (1, -1, Rounding::Down, -1, Side::Fits),
        (1, -1, Rounding::Zero, 0, Side::Fits),
        (3, 128, Rounding::Even, 2, Side::Fits),
        (1, 128, Rounding::Even, 0, Side::Fits),
        (i16::MIN, i32::MIN, Rounding::Even, 0, Side::Above),
    ] {
        let operands = [a as i128, b as i128, 16];
        check(
            "product",
            operands,
            product(a, b, rounding),
            (wrapped, side),
        );
    }
}

/// The square of the greatest word of 64 bits, 2^128 - 2^65 + 1 in units of 2^-128.
fn square(to: u32) -> Found {
    let most = u64::MAX;
    let outcome = mul_into_of::<u64, u64, u64>(most, 64, most, 64, to, Rounding::Even);
    (outcome.wrapped as i128, outcome.side)
}

#[test]
fn long_products() {
    for (to, wrapped, side) in [
        (0, 1, Side::Fits),
        (64, 18446744073709551614, Side::Fits),
        (128, 1, Side::Above),
        (192, 0, Side::Above),
    ] {
        check("square", [64, 64, to as i128], square(to), (wrapped, side));
    }
}

/// A conversion through the bound.
fn converted<S: Castable, T: Castable>(a: S, from: u32, to: u32) -> Outcome<T> {
    convert_of(a, from, to)
}

/// A conversion inside a word of 32 bits.
fn moved(a: i32, from: u32, to: u32) -> Found {
    let outcome = converted::<i32, i32>(a, from, to);
    (outcome.wrapped as i128, outcome.side)
}

#[test]
fn conversions() {
    for (a, from, to, wrapped, side) in [
        (5_i32, 0, 16, 327680, Side::Fits),
        (-3, 8, 16, -768, Side::Fits),
        (-3, 1, 0, -2, Side::Fits),
        (40000, 0, 16, -1673527296, Side::Above),
        (-32769, 0, 16, 2147418112, Side::Below),
        (1, 0, 32, 0, Side::Above),
        (-1, 40, 8, -1, Side::Fits),
    ] {
        let operands = [a as i128, from as i128, to as i128];
        check("conversion", operands, moved(a, from, to), (wrapped, side));
    }
}

#[test]
fn conversions_between_words() {
    let lost = converted::<u64, i64>(u64::MAX, 0, 64);
    assert!(lost.wrapped == 0 && lost.side == Side::Above);
    let narrow = converted::<i16, u8>(-1, 4, 4);
    assert!(narrow.wrapped == 255 && narrow.side == Side::Below);
}

/// A conversion of 4 fraction bits to none, to half the width.
fn rounded(a: i16, rounding: Rounding) -> Found {
    let outcome = convert_round_of::<i16, i8>(a, 4, 0, rounding);
    (outcome.wrapped as i128, outcome.side)
}

#[test]
fn roundings() {
    for (a, rounding, wrapped) in [
        (24_i16, Rounding::Even, 2),
        (40, Rounding::Even, 2),
        (-24, Rounding::Even, -2),
        (-40, Rounding::Even, -2),
        (-25, Rounding::Zero, -1),
        (-25, Rounding::Down, -2),
    ] {
        let found = rounded(a, rounding);
        check("rounding", [a as i128, 4, 0], found, (wrapped, Side::Fits));
    }
}

/// A call that leaves a whole number, or what is left beside it.
#[derive(Clone, Copy)]
enum WholeCall {
    Floor,
    Frac,
    Ceil,
    Round,
    RoundTiesEven,
}

fn whole_number(call: WholeCall, bits: i8) -> Outcome<i8> {
    match call {
        WholeCall::Floor => floor_of(bits, 4),
        WholeCall::Frac => frac_of(bits, 4),
        WholeCall::Ceil => ceil_of(bits, 4),
        WholeCall::Round => round_of(bits, 4),
        WholeCall::RoundTiesEven => round_ties_even_of(bits, 4),
    }
}

#[test]
fn whole_numbers() {
    let below = convert_of::<i8, i8>(-40, 4, 4).wrapped;
    assert!(whole_number(WholeCall::Floor, below).wrapped == -48);
    assert!(whole_number(WholeCall::Frac, below).wrapped == 8);
    assert!(whole_number(WholeCall::Ceil, below).wrapped == -32);
    assert!(whole_number(WholeCall::Round, below).wrapped == -48);
    assert!(whole_number(WholeCall::RoundTiesEven, below).wrapped == -32);
    assert!(whole_number(WholeCall::Ceil, i8::MAX).side == Side::Above);
}

#[test]
fn orders() {
    assert!(compare_of(1_i32, 16, 0_u8, 0) == Ordering::Greater);
    assert!(compare_of(i64::MIN, 64, u64::MAX, 0) == Ordering::Less);
    assert!(compare_of(3_u8, 0, 196608_i32, 16) == Ordering::Equal);
}
