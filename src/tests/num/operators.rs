// Made by `make package` of crates/tests_num/src/operators.rt, which is proved: changes go there.

//! The operators, at concrete numbers and through their bounds.

use super::same::{all_hold, all_same};
use crate::num::*;
use std::ops::{
    Add, AddAssign, BitAnd, BitAndAssign, BitOr, BitOrAssign, BitXor, BitXorAssign, Div, DivAssign,
    Mul, MulAssign, Neg, Not, Rem, RemAssign, Shl, ShlAssign, Shr, ShrAssign, Sub, SubAssign,
};

fn i8_of<const F: u32>(bits: i8) -> Fixed<i8, F> {
    Fixed { bits }
}

fn u8_of<const F: u32>(bits: u8) -> Fixed<u8, F> {
    Fixed { bits }
}

/// The answers of the operators between two numbers.
fn between<N>(a: N, b: N) -> [N; 5]
where
    N: Copy
        + Add<N, Output = N>
        + Sub<N, Output = N>
        + Mul<N, Output = N>
        + Div<N, Output = N>
        + Rem<N, Output = N>,
{
    [a + b, a - b, a * b, a / b, a % b]
}

/// The same by the assigning operators.
fn assigned<N>(a: N, b: N) -> [N; 5]
where
    N: Copy + AddAssign<N> + SubAssign<N> + MulAssign<N> + DivAssign<N> + RemAssign<N>,
{
    let mut answers = [a; 5];
    answers[0] += b;
    answers[1] -= b;
    answers[2] *= b;
    answers[3] /= b;
    answers[4] %= b;
    answers
}

/// The answers of the operators with an integer on the right, and their assigning forms.
fn by_integer<N, K>(a: N, k: K) -> [N; 6]
where
    K: Copy,
    N: Copy
        + Mul<K, Output = N>
        + Div<K, Output = N>
        + Rem<K, Output = N>
        + MulAssign<K>
        + DivAssign<K>
        + RemAssign<K>,
{
    let mut answers = [a * k, a / k, a % k, a, a, a];
    answers[3] *= k;
    answers[4] /= k;
    answers[5] %= k;
    answers
}

/// The answers of the operators on bits, and their assigning forms.
fn on_bits<N>(a: N, b: N) -> [N; 7]
where
    N: Copy
        + Not<Output = N>
        + BitAnd<N, Output = N>
        + BitOr<N, Output = N>
        + BitXor<N, Output = N>
        + BitAndAssign<N>
        + BitOrAssign<N>
        + BitXorAssign<N>,
{
    let mut answers = [!a, a & b, a | b, a ^ b, a, a, a];
    answers[4] &= b;
    answers[5] |= b;
    answers[6] ^= b;
    answers
}

/// The answers of the shifts, and their assigning forms.
fn shifted<N>(a: N, by: u32) -> [N; 4]
where
    N: Copy + Shl<u32, Output = N> + Shr<u32, Output = N> + ShlAssign<u32> + ShrAssign<u32>,
{
    let mut answers = [a << by, a >> by, a, a];
    answers[2] <<= by;
    answers[3] >>= by;
    answers
}

/// The negated number.
fn negated<N: Neg<Output = N>>(a: N) -> N {
    -a
}

/// The product of an integer and a number.
fn multiple<K: Mul<N, Output = N>, N>(k: K, a: N) -> N {
    k * a
}

/// Whether the numbers have these bits.
fn have(numbers: &[FixedI8<4>], bits: &[i8]) -> bool {
    for at in 0..bits.len() {
        if numbers.len() <= at || numbers[at].bits != bits[at] {
            return false;
        }
    }
    numbers.len() == bits.len()
}

/// The same without a sign.
fn have_unsigned(numbers: &[FixedU8<4>], bits: &[u8]) -> bool {
    for at in 0..bits.len() {
        if numbers.len() <= at || numbers[at].bits != bits[at] {
            return false;
        }
    }
    numbers.len() == bits.len()
}

#[test]
fn through_bounds() {
    let (a, b) = (i8_of::<4>(48), i8_of::<4>(-20));
    let answers = [28, 68, -60, -38, 8];
    let by_integer = by_integer(a, -2);
    let on_bits = on_bits(a, b);
    all_hold(&[
        ("between", have(&between(a, b), &answers)),
        ("assigned", have(&assigned(a, b), &answers)),
        (
            "by an integer",
            have(&by_integer, &[-96, -24, 16, -96, -24, 16]),
        ),
        ("on bits", have(&on_bits, &[-49, 32, -4, -36, 32, -4, -36])),
        ("shifted", have(&shifted(b, 3), &[96, -3, 96, -3])),
        ("negated", negated(b).bits == 20),
        ("multiple", multiple(-2, a).bits == -96),
    ]);
}

#[test]
fn through_bounds_without_a_sign() {
    let (a, b) = (u8_of::<4>(48), u8_of::<4>(20));
    let answers = [68, 28, 60, 38, 8];
    let by_integer = by_integer(a, 2);
    let on_bits = on_bits(a, b);
    all_hold(&[
        ("between", have_unsigned(&between(a, b), &answers)),
        ("assigned", have_unsigned(&assigned(a, b), &answers)),
        (
            "by an integer",
            have_unsigned(&by_integer, &[96, 24, 16, 96, 24, 16]),
        ),
        (
            "on bits",
            have_unsigned(&on_bits, &[207, 16, 52, 36, 16, 52, 36]),
        ),
        ("shifted", have_unsigned(&shifted(b, 4), &[64, 1, 64, 1])),
        ("multiple", multiple(5, a).bits == 240),
    ]);
}

#[test]
fn known_answers() {
    let mut product = i8_of::<4>(48);
    product *= i8_of::<6>(32);
    let least: FixedI32<16> = Fixed { bits: i32::MIN };
    let unit: FixedI16<12> = Fixed { bits: 4096 };
    all_same(&[
        ("3 by a half", product.bits as i64, 24),
        ("the least by -1", (least % -1).bits as i64, 0),
        ("a fifth by 17", (i8_of::<4>(16) / 5 * 17).bits as i64, 51),
        ("a longer fifth by 17", (unit / 5 * 17).bits as i64, 13923),
    ]);
}

/// An integer of each signed word on the left.
fn signed_on_the_left() -> [i64; 4] {
    [
        (-3_i8 * FixedI8::<4> { bits: 5 }).bits as i64,
        (-3_i16 * FixedI16::<4> { bits: 5 }).bits as i64,
        (-3_i32 * FixedI32::<4> { bits: 5 }).bits as i64,
        (-3_i64 * FixedI64::<4> { bits: 5 }).bits,
    ]
}

/// An integer of each unsigned word on the left.
fn unsigned_on_the_left() -> [u64; 4] {
    [
        (3_u8 * FixedU8::<4> { bits: 5 }).bits as u64,
        (3_u16 * FixedU16::<4> { bits: 5 }).bits as u64,
        (3_u32 * FixedU32::<4> { bits: 5 }).bits as u64,
        (3_u64 * FixedU64::<4> { bits: 5 }).bits,
    ]
}

/// An integer of 8, 16, 32 and 64 bits on the left.
#[test]
fn integers_on_the_left() {
    let (signed, unsigned) = (signed_on_the_left(), unsigned_on_the_left());
    assert!(signed == [-15; 4], "{signed:?}");
    assert!(unsigned == [15; 4], "{unsigned:?}");
}
