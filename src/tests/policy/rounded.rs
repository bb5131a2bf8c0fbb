// Made by `make package` of crates/tests_policy/src/rounded.rt, which is proved: changes go there.

//! The calls with a named rounding, through their bounds. Numbers of 8 bits have four fraction bits: 24 is 1.5.

use super::plain::{Forms, forms, shown, stands};
use crate::num::{Fixed, FixedI8, FixedU8, Held};
use crate::policy::{
    CheckedMulAdd, CheckedProducts, CheckedRounded, OverflowingMulAdd, OverflowingProducts,
    OverflowingRounded, WrappingMulAdd, WrappingProducts, WrappingRounded,
};
use crate::strict::{
    SaturatingMulAdd, SaturatingProducts, SaturatingRounded, StrictMulAdd, StrictProducts,
    StrictRounded, UnwrappedMulAdd, UnwrappedProducts, UnwrappedRounded,
};
use crate::word::Rounding;

type Number = FixedI8<4>;

/// The roundings, in the order of the columns below.
const ROUNDINGS: [Rounding; 3] = [Rounding::Down, Rounding::Zero, Rounding::Even];

/// The four forms of a product.
fn product<N>(a: N, b: N, rounding: Rounding) -> Forms
where
    N: CheckedRounded + OverflowingRounded + WrappingRounded + SaturatingRounded,
{
    shown(
        a.checked_mul_round(b, rounding),
        a.overflowing_mul_round(b, rounding),
        a.wrapping_mul_round(b, rounding),
        a.saturating_mul_round(b, rounding),
    )
}

/// The four forms of a quotient.
fn quotient<N>(a: N, b: N, rounding: Rounding) -> Forms
where
    N: CheckedRounded + OverflowingRounded + WrappingRounded + SaturatingRounded,
{
    shown(
        a.checked_div_round(b, rounding),
        a.overflowing_div_round(b, rounding),
        a.wrapping_div_round(b, rounding),
        a.saturating_div_round(b, rounding),
    )
}

/// The four forms of a reciprocal.
fn reciprocal<N>(a: N, rounding: Rounding) -> Forms
where
    N: CheckedRounded + OverflowingRounded + WrappingRounded + SaturatingRounded,
{
    shown(
        a.checked_recip_round(rounding),
        a.overflowing_recip_round(rounding),
        a.wrapping_recip_round(rounding),
        a.saturating_recip_round(rounding),
    )
}

/// The four forms of a quotient by an integer.
fn quotient_by_integer<N>(a: N, k: N::Bits, rounding: Rounding) -> Forms
where
    N: CheckedRounded + OverflowingRounded + WrappingRounded + SaturatingRounded,
{
    shown(
        a.checked_div_int_round(k, rounding),
        a.overflowing_div_int_round(k, rounding),
        a.wrapping_div_int_round(k, rounding),
        a.saturating_div_int_round(k, rounding),
    )
}

/// The four forms of multiply-add.
fn scaled<const G: u32, N>(a: N, mul: Fixed<N::Bits, G>, add: N, rounding: Rounding) -> Forms
where
    N: CheckedMulAdd<G> + OverflowingMulAdd<G> + WrappingMulAdd<G> + SaturatingMulAdd<G>,
{
    shown(
        a.checked_mul_add_round(mul, add, rounding),
        a.overflowing_mul_add_round(mul, add, rounding),
        a.wrapping_mul_add_round(mul, add, rounding),
        a.saturating_mul_add_round(mul, add, rounding),
    )
}

/// The four forms of a sum with a product.
fn raised<const A: u32, const B: u32, N>(
    c: N,
    a: Fixed<N::Bits, A>,
    b: Fixed<N::Bits, B>,
    rounding: Rounding,
) -> Forms
where
    N: CheckedProducts<A, B>
        + OverflowingProducts<A, B>
        + WrappingProducts<A, B>
        + SaturatingProducts<A, B>,
{
    shown(
        c.checked_add_prod_round(a, b, rounding),
        c.overflowing_add_prod_round(a, b, rounding),
        c.wrapping_add_prod_round(a, b, rounding),
        c.saturating_add_prod_round(a, b, rounding),
    )
}

/// Asserts the forms of a number that fits.
fn fits(operands: [i8; 3], found: Forms, number: i128) {
    let operands = operands.map(|x| x as i128);
    stands(operands, found, forms(number, number));
}

#[test]
fn products() {
    for (a, b, numbers) in [
        (24_i8, 3_i8, [4, 4, 4]),
        (-24, 3, [-5, -4, -4]),
        (24, 5, [7, 7, 8]),
        (-24, 5, [-8, -7, -8]),
    ] {
        for i in 0..3 {
            let found = product(Number { bits: a }, Number { bits: b }, ROUNDINGS[i]);
            fits([a, b, i as i8], found, numbers[i]);
        }
    }
    let (most, least) = (Number { bits: 127 }, Number { bits: -128 });
    let past = product(most, most, Rounding::Even);
    stands([127, 127, 2], past, forms(-16, 127));
    let below = product(least, most, Rounding::Even);
    stands([-128, 127, 2], below, forms(8, -128));
}

#[test]
fn quotients() {
    for (a, b, numbers) in [
        (1_i8, 32_i8, [0, 0, 0]),
        (3, 32, [1, 1, 2]),
        (-1, 32, [-1, 0, 0]),
        (-3, 32, [-2, -1, -2]),
        (5, -32, [-3, -2, -2]),
    ] {
        if b != 0 {
            for i in 0..3 {
                let found = quotient(Number { bits: a }, Number { bits: b }, ROUNDINGS[i]);
                fits([a, b, i as i8], found, numbers[i]);
            }
        }
    }
    let (most, unit) = (Number { bits: 127 }, Number { bits: 1 });
    stands(
        [127, 1, 0],
        quotient(most, unit, Rounding::Down),
        forms(-16, 127),
    );
    let zero = Number { bits: 0 };
    assert!(most.checked_div_round(zero, Rounding::Even).is_none());
}

#[test]
fn reciprocals() {
    for (a, numbers) in [
        (96_i8, [2, 2, 3]),
        (-96, [-3, -2, -3]),
        (-128, [-2, -2, -2]),
    ] {
        if a != 0 {
            for i in 0..3 {
                let found = reciprocal(Number { bits: a }, ROUNDINGS[i]);
                fits([a, 0, i as i8], found, numbers[i]);
            }
        }
    }
    let unit = Number { bits: 1 };
    stands([1, 0, 2], reciprocal(unit, Rounding::Even), forms(0, 127));
    let zero = Number { bits: 0 };
    assert!(zero.checked_recip_round(Rounding::Even).is_none());
}

#[test]
fn quotients_by_integers() {
    for (a, k, numbers) in [
        (5_i8, 2_i8, [2, 2, 2]),
        (7, 2, [3, 3, 4]),
        (-5, 2, [-3, -2, -2]),
        (-7, -2, [3, 3, 4]),
    ] {
        if k != 0 {
            for i in 0..3 {
                let found = quotient_by_integer(Number { bits: a }, k, ROUNDINGS[i]);
                fits([a, k, i as i8], found, numbers[i]);
            }
        }
    }
    let least = Number { bits: -128 };
    let past = quotient_by_integer(least, -1, Rounding::Even);
    stands([-128, -1, 2], past, forms(-128, 127));
    assert!(least.checked_div_int_round(0, Rounding::Even).is_none());
}

/// The factor has two fraction bits.
#[test]
fn multiply_adds() {
    for (a, mul, add, numbers) in [
        (5_i8, 2_i8, 0_i8, [2, 2, 2]),
        (7, 2, 1, [4, 4, 5]),
        (-5, 2, 1, [-2, -1, -1]),
    ] {
        for i in 0..3 {
            let (x, y) = (Number { bits: a }, FixedI8::<2> { bits: mul });
            let found = scaled(x, y, Number { bits: add }, ROUNDINGS[i]);
            fits([a, mul, add], found, numbers[i]);
        }
    }
    let (most, factor) = (Number { bits: 127 }, FixedI8::<2> { bits: 127 });
    let past = scaled(most, factor, Number { bits: 0 }, Rounding::Even);
    stands([127, 127, 0], past, forms(-64, 127));
}

/// The factors have four and two fraction bits, so that the product moves down by two places.
#[test]
fn sums_with_products() {
    for (c, a, b, numbers) in [
        (1_i8, 5_i8, 2_i8, [3, 3, 3]),
        (0, 7, 2, [3, 3, 4]),
        (-1, -5, 2, [-4, -3, -3]),
    ] {
        for i in 0..3 {
            let (x, y) = (Number { bits: a }, FixedI8::<2> { bits: b });
            let found = raised(Number { bits: c }, x, y, ROUNDINGS[i]);
            fits([c, a, b], found, numbers[i]);
        }
    }
    let (most, factor) = (FixedU8::<4> { bits: 255 }, FixedU8::<8> { bits: 255 });
    let past = raised(most, most, factor, Rounding::Even);
    stands([255, 255, 255], past, forms(253, 255));
}

/// What fits, by the strict and the unwrapped calls: bankers' rounding.
#[test]
fn numbers_that_fit() {
    let (a, b, even) = (Number { bits: 24 }, Number { bits: 5 }, Rounding::Even);
    let strict = [
        a.strict_mul_round(b, even),
        a.strict_div_round(Number { bits: 64 }, even),
        a.strict_recip_round(even),
        b.strict_div_int_round(2, even),
        a.strict_mul_add_round(FixedI8::<2> { bits: 1 }, b, even),
        a.strict_add_prod_round(b, FixedI8::<2> { bits: 2 }, even),
    ];
    let unwrapped = [
        a.unwrapped_mul_round(b, even),
        a.unwrapped_div_round(Number { bits: 64 }, even),
        a.unwrapped_recip_round(even),
        b.unwrapped_div_int_round(2, even),
        a.unwrapped_mul_add_round(FixedI8::<2> { bits: 1 }, b, even),
        a.unwrapped_add_prod_round(b, FixedI8::<2> { bits: 2 }, even),
    ];
    assert!(strict.map(|x| x.bits) == [8, 6, 11, 2, 11, 26]);
    assert!(unwrapped.map(|x| x.bits) == [8, 6, 11, 2, 11, 26]);
}
