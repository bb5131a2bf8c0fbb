// Made by `make package` of crates/tests_policy/src/products.rt, which is proved: changes go there.

//! Multiply-add and sums with products, through their bounds, with factors of other fractions.

use super::plain::{Forms, all_fit, forms, shown, stands, value};
use crate::num::{Fixed, FixedI8, FixedU8};
use crate::policy::{
    CheckedMulAdd, CheckedProducts, OverflowingMulAdd, OverflowingProducts, WrappingMulAdd,
    WrappingProducts,
};
use crate::strict::{
    SaturatingMulAdd, SaturatingProducts, StrictMulAdd, StrictProducts, UnwrappedMulAdd,
    UnwrappedProducts,
};

/// The four forms of multiply-add.
fn scaled<const G: u32, N>(a: N, mul: Fixed<N::Bits, G>, add: N) -> Forms
where
    N: CheckedMulAdd<G> + OverflowingMulAdd<G> + WrappingMulAdd<G> + SaturatingMulAdd<G>,
{
    shown(
        a.checked_mul_add(mul, add),
        a.overflowing_mul_add(mul, add),
        a.wrapping_mul_add(mul, add),
        a.saturating_mul_add(mul, add),
    )
}

/// Multiply-add, which fits, by the strict and the unwrapped call.
fn fitting_scaled<const G: u32, N: StrictMulAdd<G> + UnwrappedMulAdd<G>>(
    a: N,
    mul: Fixed<N::Bits, G>,
    add: N,
) -> [i128; 2] {
    [
        value(a.strict_mul_add(mul, add)),
        value(a.unwrapped_mul_add(mul, add)),
    ]
}

#[test]
fn multiply_adds() {
    for (a, mul, add, left, nearest) in [
        (127_i8, 24_i8, -127_i8, 63, 63),
        (-3, 5, 0, -1, -1),
        (-128, 48, -1, 127, -128),
    ] {
        let (x, y) = (FixedI8::<7> { bits: a }, FixedI8::<4> { bits: mul });
        let found = scaled(x, y, FixedI8::<7> { bits: add });
        let operands = [a as i128, mul as i128, add as i128];
        stands(operands, found, forms(left, nearest));
    }
    let (x, y) = (FixedI8::<4> { bits: 127 }, FixedI8::<4> { bits: 48 });
    stands([127, 48, 127], scaled(x, y, x), forms(-4, 127));
    for (a, mul, add, left, nearest) in [
        (255_u8, 255_u8, 1_u8, 255, 255),
        (255, 255, 2, 0, 255),
        (255, 255, 3, 1, 255),
        (0, 255, 2, 2, 2),
        (1, 255, 0, 0, 0),
    ] {
        let (x, y) = (FixedU8::<4> { bits: a }, FixedU8::<8> { bits: mul });
        let found = scaled(x, y, FixedU8::<4> { bits: add });
        let operands = [a as i128, mul as i128, add as i128];
        stands(operands, found, forms(left, nearest));
    }
}

#[test]
fn multiply_adds_that_fit() {
    let (x, y) = (FixedI8::<4> { bits: 127 }, FixedI8::<4> { bits: 24 });
    let signed = fitting_scaled(x, y, FixedI8::<4> { bits: -127 });
    let half = FixedI8::<4> { bits: 8 };
    let of_half = fitting_scaled(FixedI8::<4> { bits: 48 }, half, half);
    let (x, y) = (FixedU8::<4> { bits: 255 }, FixedU8::<8> { bits: 255 });
    let unsigned = fitting_scaled(x, y, FixedU8::<4> { bits: 1 });
    let found = [signed, of_half, unsigned];
    assert!(
        found == [[63; 2], [32; 2], [255; 2]],
        "signed, of a half, unsigned: {found:?}"
    );
}

/// Sums as answers, and as they are stored beside what the call answers: checked, overflowing, wrapping, saturating.
type Sums = (Forms, ((Option<()>, i128), (bool, i128), i128, i128));

/// The four sums with a product, as answers, and where they are stored beside what the call
/// answers.
fn raised<const A: u32, const B: u32, N>(c: N, a: Fixed<N::Bits, A>, b: Fixed<N::Bits, B>) -> Sums
where
    N: CheckedProducts<A, B>
        + OverflowingProducts<A, B>
        + WrappingProducts<A, B>
        + SaturatingProducts<A, B>,
{
    let answers = shown(
        c.checked_add_prod(a, b),
        c.overflowing_add_prod(a, b),
        c.wrapping_add_prod(a, b),
        c.saturating_add_prod(a, b),
    );
    let (mut checked, mut overflowing, mut wrapping, mut saturating) = (c, c, c, c);
    let answer = checked.checked_mul_acc(a, b);
    let verdict = overflowing.overflowing_mul_acc(a, b);
    wrapping.wrapping_mul_acc(a, b);
    saturating.saturating_mul_acc(a, b);
    (
        answers,
        (
            (answer, value(checked)),
            (verdict, value(overflowing)),
            value(wrapping),
            value(saturating),
        ),
    )
}

/// What they are, by the sum before, the bits that are left and the nearest that fit.
fn sums(before: i128, left: i128, nearest: i128) -> Sums {
    let fits = left == nearest;
    let stored = if fits {
        (Some(()), left)
    } else {
        (None, before)
    };
    (forms(left, nearest), (stored, (!fits, left), left, nearest))
}

/// Asserts that the sum before and two factors have these sums; the message names them.
fn sums_stand(operands: [i128; 3], found: Sums, left: i128, nearest: i128) {
    let [before, _, _] = operands;
    assert!(found == sums(before, left, nearest), "{operands:?}");
}

#[test]
fn sums_with_products() {
    for (c, a, b, left, nearest) in [
        (3_i8, 3_i8, -5_i8, 2, 2),
        (-128, 64, 32, 0, 0),
        (-100, 64, -64, -100, -128),
        (100, 64, 64, 100, 127),
        (100, 16, 32, -124, 127),
        (-100, 127, -48, 31, -128),
    ] {
        let (x, y) = (FixedI8::<4> { bits: a }, FixedI8::<4> { bits: b });
        let found = raised(FixedI8::<4> { bits: c }, x, y);
        sums_stand([c as i128, a as i128, b as i128], found, left, nearest);
    }
    let (x, y) = (FixedI8::<0> { bits: 2 }, FixedI8::<0> { bits: -4 });
    let found = raised(FixedI8::<4> { bits: -3 }, x, y);
    sums_stand([-3, 2, -4], found, 125, -128);
}

#[test]
fn unsigned_sums_with_products() {
    for (c, a, b, left, nearest) in [
        (5_u8, 1_u8, 15_u8, 245, 245),
        (16, 5, 3, 0, 255),
        (250, 3, 7, 74, 255),
    ] {
        let (x, y) = (FixedU8::<4> { bits: a }, FixedU8::<0> { bits: b });
        let found = raised(FixedU8::<8> { bits: c }, x, y);
        sums_stand([c as i128, a as i128, b as i128], found, left, nearest);
    }
    for (c, a, b, left, nearest) in [
        (0_u8, 255_u8, 255_u8, 254, 254),
        (1, 255, 255, 255, 255),
        (2, 255, 255, 0, 255),
        (7, 255, 255, 5, 255),
        (254, 255, 255, 252, 255),
        (252, 128, 7, 255, 255),
    ] {
        let (x, y) = (FixedU8::<8> { bits: a }, FixedU8::<4> { bits: b });
        let found = raised(FixedU8::<4> { bits: c }, x, y);
        sums_stand([c as i128, a as i128, b as i128], found, left, nearest);
    }
}

/// The sum with a product, which fits, by strict and unwrapped calls, as an answer and where it is stored.
fn fitting_raised<const A: u32, const B: u32, N: StrictProducts<A, B> + UnwrappedProducts<A, B>>(
    c: N,
    a: Fixed<N::Bits, A>,
    b: Fixed<N::Bits, B>,
) -> [i128; 4] {
    let (mut strict, mut unwrapped) = (c, c);
    strict.strict_mul_acc(a, b);
    unwrapped.unwrapped_mul_acc(a, b);
    [
        value(c.strict_add_prod(a, b)),
        value(c.unwrapped_add_prod(a, b)),
        value(strict),
        value(unwrapped),
    ]
}

#[test]
fn sums_that_fit() {
    let (a, b) = (FixedI8::<4> { bits: 3 }, FixedI8::<4> { bits: -5 });
    let above = fitting_raised(FixedI8::<4> { bits: 3 }, a, b);
    let (a, b) = (FixedI8::<4> { bits: 24 }, FixedI8::<4> { bits: -5 });
    let below = fitting_raised(FixedI8::<4> { bits: -100 }, a, b);
    let (a, b) = (FixedI8::<4> { bits: 48 }, FixedI8::<4> { bits: 8 });
    let half = fitting_raised(FixedI8::<4> { bits: 8 }, a, b);
    let (a, b) = (FixedI8::<0> { bits: 2 }, FixedI8::<0> { bits: 4 });
    let whole = fitting_raised(FixedI8::<4> { bits: -3 }, a, b);
    let (a, b) = (FixedU8::<4> { bits: 1 }, FixedU8::<0> { bits: 15 });
    let unsigned = fitting_raised(FixedU8::<8> { bits: 5 }, a, b);
    let (a, b) = (FixedU8::<8> { bits: 255 }, FixedU8::<4> { bits: 255 });
    let greatest = fitting_raised(FixedU8::<4> { bits: 1 }, a, b);
    all_fit(&[
        ("above 0", above, [2; 4]),
        ("below 0", below, [-108; 4]),
        ("with a half", half, [32; 4]),
        ("with whole factors", whole, [125; 4]),
        ("without a sign", unsigned, [245; 4]),
        ("to the greatest", greatest, [255; 4]),
    ]);
}

/// The sum with the products of the pairs, beside its answer.
fn dotted<const A: u32, const B: u32, N: CheckedProducts<A, B>>(
    c: N,
    a: &[Fixed<N::Bits, A>],
    b: &[Fixed<N::Bits, B>],
) -> (Option<()>, i128) {
    let mut sum = c;
    let answer = sum.checked_dot_acc(a, b);
    (answer, value(sum))
}

#[test]
fn sums_with_all_products() {
    for (c, [a0, a1], [b0, b1], answer, sum) in [
        (100_i8, [64_i8, 64], [64_i8, -64], None, 100),
        (0, [3, 3], [1, -1], Some(()), -1),
        (-1, [127, 127], [127, 127], None, -1),
    ] {
        let left = [FixedI8::<4> { bits: a0 }, FixedI8::<4> { bits: a1 }];
        let right = [FixedI8::<4> { bits: b0 }, FixedI8::<4> { bits: b1 }];
        let found = dotted(FixedI8::<4> { bits: c }, &left, &right);
        assert!(found == (answer, sum), "{c}");
    }
    let left = [FixedU8::<8> { bits: 255 }, FixedU8::<8> { bits: 128 }];
    let right = [FixedU8::<4> { bits: 255 }, FixedU8::<4> { bits: 3 }];
    let fits = dotted(FixedU8::<4> { bits: 0 }, &left, &right);
    let large = [FixedU8::<4> { bits: 16 }, FixedU8::<4> { bits: 48 }];
    let kept = dotted(FixedU8::<4> { bits: 100 }, &large, &large);
    let wanted = [(Some(()), 255), (None, 100)];
    assert!(
        [fits, kept] == wanted,
        "one that fits, and one that is kept"
    );
}
