// Made by `make package` of crates/tests_num/src/plain_names.rt, which is proved: changes go there.

//! Known answers, and each trait through its bound.

use super::same::all_same;
use crate::num::{Fixed, Held, Number};
use crate::ops::*;

fn i8_of<const F: u32>(bits: i8) -> Fixed<i8, F> {
    Fixed { bits }
}

fn u8_of<const F: u32>(bits: u8) -> Fixed<u8, F> {
    Fixed { bits }
}

/// One over the number, through the bound.
fn inverse<N: Plain>(a: N) -> N {
    a.recip()
}

/// The magnitude of a signed number, through the bound.
fn magnitude<N: PlainSigned>(a: N) -> N {
    a.abs()
}

/// The sum with a signed number, through the bound.
fn moved<N: PlainUnsigned>(a: N, by: N::Signed) -> N {
    a.add_signed(by)
}

/// Multiply-add, through the bound.
fn scaled<const G: u32, N: PlainMulAdd<G>>(a: N, mul: Fixed<N::Bits, G>, add: N) -> N {
    a.mul_add(mul, add)
}

/// The sum with a product, through the bound.
fn raised<const A: u32, const B: u32, N: PlainProducts<A, B>>(
    c: N,
    a: Fixed<N::Bits, A>,
    b: Fixed<N::Bits, B>,
) -> N {
    c.add_prod(a, b)
}

/// One over -1.5 and over 7 / 16.
fn inverses() -> [i64; 2] {
    [
        inverse(i8_of::<4>(-24)).bits as i64,
        inverse(u8_of::<4>(7)).bits as i64,
    ]
}

/// A magnitude, and a sum with a signed number.
fn magnitude_and_sum() -> [i64; 2] {
    [
        magnitude(i8_of::<4>(-127)).bits as i64,
        moved(u8_of::<4>(48), i8_of(-48)).bits as i64,
    ]
}

/// Multiply-adds with and without a sign.
fn scaled_numbers() -> [i64; 2] {
    let signed = scaled(i8_of::<4>(127), i8_of::<4>(24), i8_of(-127));
    let unsigned = scaled(u8_of::<4>(255), u8_of::<8>(255), u8_of(1));
    [signed.bits as i64, unsigned.bits as i64]
}

/// Sums with a product, with and without a sign.
fn raised_numbers() -> [i64; 2] {
    let signed = raised(i8_of::<4>(3), i8_of::<0>(2), i8_of::<4>(-5));
    let unsigned = raised(u8_of::<4>(1), u8_of::<8>(255), u8_of::<4>(255));
    [signed.bits as i64, unsigned.bits as i64]
}

#[test]
fn through_bounds() {
    for (what, found, wanted) in [
        ("inverses", inverses(), [-10, 36]),
        ("magnitude and sum", magnitude_and_sum(), [127, 0]),
        ("scaled", scaled_numbers(), [63, 255]),
        ("raised", raised_numbers(), [-7, 255]),
    ] {
        assert!(found == wanted, "{what}: {found:?}");
    }
}

/// Euclid's quotients and remainders.
fn euclid() -> [i8; 5] {
    let (x, y) = (i8_of::<4>(120), i8_of::<4>(-24));
    [
        x.div_euclid(i8_of(32)).bits,
        i8_of::<4>(-120).div_euclid(i8_of(32)).bits,
        y.div_euclid_int(2).bits,
        y.rem_euclid(i8_of(20)).bits,
        y.rem_euclid_int(2).bits,
    ]
}

/// The next multiples of 4 by 1.5 and by -1.5.
fn next_multiples() -> [i64; 2] {
    let x = i8_of::<4>(64);
    [
        x.next_multiple_of(i8_of(24)).bits as i64,
        x.next_multiple_of(i8_of(-24)).bits as i64,
    ]
}

/// The distance of -3 and 4, and the sign of a number below 0.
fn distance_and_sign() -> [i64; 2] {
    [
        i8_of::<4>(-48).dist(i8_of(64)).bits as i64,
        i8_of::<4>(-3).signum().bits as i64,
    ]
}

/// A sum and a difference of a signed and an unsigned number.
fn mixed_sums() -> [i64; 2] {
    [
        i8_of::<4>(-128).add_unsigned(u8_of(255)).bits as i64,
        i8_of::<4>(127).sub_unsigned(u8_of(255)).bits as i64,
    ]
}

/// What a number with 31 fraction bits leaves by the integer 1.
fn longer_remainder() -> i64 {
    let number: Fixed<i32, 31> = Fixed { bits: -536870912 };
    number.rem_euclid_int(1).bits as i64
}

#[test]
fn signed_numbers() {
    let [above, below, by_integer, left, left_by_integer] = euclid();
    let ([multiple, multiple_below], [distance, sign]) = (next_multiples(), distance_and_sign());
    let [sum, difference] = mixed_sums();
    all_same(&[
        ("7.5 over 2", above as i64, 48),
        ("-7.5 over 2", below as i64, -64),
        ("-1.5 over the integer 2", by_integer as i64, -16),
        ("what -1.5 leaves by 1.25", left as i64, 16),
        (
            "what -1.5 leaves by the integer 2",
            left_by_integer as i64,
            8,
        ),
        ("distance", distance, 112),
        ("next multiple", multiple, 72),
        ("next multiple of one below 0", multiple_below, 48),
        ("sign", sign, -16),
        ("sum", sum, 127),
        ("difference", difference, -128),
        ("a longer remainder", longer_remainder(), 1610612736),
    ]);
}

#[test]
fn unsigned_numbers() {
    let mut sum = u8_of::<4>(7);
    sum.mul_acc(u8_of::<4>(40), u8_of::<8>(128));
    all_same(&[
        (
            "difference",
            u8_of::<4>(20).sub_signed(i8_of(-128)).bits as i64,
            148,
        ),
        ("distance", u8_of::<4>(50).dist(u8_of(200)).bits as i64, 150),
        ("sum", sum.bits as i64, 27),
    ]);
}

/// Multiply-adds by name, with and without a sign.
fn multiply_adds() -> [i64; 2] {
    let product = i8_of::<4>(127).mul_add(i8_of::<4>(-24), i8_of(127));
    let unsigned = u8_of::<4>(200).mul_add(u8_of::<4>(17), u8_of(43));
    [product.bits as i64, unsigned.bits as i64]
}

/// Sums with a product by name, with and without a sign.
fn added_products() -> [i64; 2] {
    let sum = i8_of::<4>(3).add_prod(i8_of::<4>(3), i8_of::<4>(-5));
    let unsigned = u8_of::<8>(5).add_prod(u8_of::<4>(1), u8_of::<0>(15));
    [sum.bits as i64, unsigned.bits as i64]
}

/// A sum with a product, where it is stored.
fn stored_sum() -> i64 {
    let mut stored = i8_of::<4>(-128);
    stored.mul_acc(i8_of::<4>(-64), i8_of::<4>(-32));
    stored.bits as i64
}

#[test]
fn multiply_adds_and_products() {
    let ([product, unsigned], [sum, unsigned_sum]) = (multiply_adds(), added_products());
    all_same(&[
        ("product", product, -64),
        ("product without a sign", unsigned, 255),
        ("sum", sum, 2),
        ("sum without a sign", unsigned_sum, 245),
        ("stored", stored_sum(), 0),
    ]);
}

/// The sum and the product of three signed numbers.
fn signed_folds() -> [i64; 2] {
    let items = [i8_of::<4>(24), i8_of(32), i8_of(-8)];
    [sum(&items).bits as i64, product(&items).bits as i64]
}

/// The sum and the product of two unsigned numbers.
fn unsigned_folds() -> [i64; 2] {
    let items = [u8_of::<4>(24), u8_of(32)];
    [sum(&items).bits as i64, product(&items).bits as i64]
}

/// The sum and the product of no numbers.
fn empty_folds() -> [i64; 2] {
    let none: [Fixed<i8, 4>; 0] = [];
    [sum(&none).bits as i64, product(&none).bits as i64]
}

#[test]
fn sums_and_products() {
    for (what, found, wanted) in [
        ("with a sign", signed_folds(), [48, -24]),
        ("without a sign", unsigned_folds(), [56, 48]),
        ("of none", empty_folds(), [0, 16]),
    ] {
        assert!(found == wanted, "{what}: {found:?}");
    }
}

/// The root of the greatest number below 1.
fn greatest_root() -> Fixed<u8, 8> {
    u8_of::<8>(255).sqrt()
}

/// The root of 2.
fn root_of_two() -> Fixed<i8, 4> {
    i8_of::<4>(32).sqrt()
}

#[test]
fn roots() {
    let (greatest, two) = (greatest_root().bits, root_of_two().bits);
    assert!(greatest == 255 && two == 22, "{greatest} and {two}");
}

#[test]
fn powers() {
    let (above, least) = (u8_of::<4>(17), u8_of::<4>(0));
    assert!(above.next_power_of_two().bits == 32, "from 17 on");
    assert!(least.next_power_of_two().bits == 1, "from 0 on");
}
