//! Conversions beside plain arithmetic in an `i128`: every number of every pair of formats of 8 bits, and floats.

use std::cmp::Ordering;
use zugyelmas::convert::{
    Castable, ceil_of, compare_of, convert_of, convert_round_of, floor_of, frac_of, mul_into_of,
    round_of, round_ties_even_of, saturating_convert_of,
};
use zugyelmas::float::{compare_float_of, from_float_round_of, saturating_float_of};
use zugyelmas::kernel::Rounding;
use zugyelmas::prelude::*;
use zugyelmas::word::{Outcome, Side};

const ROUNDINGS: [Rounding; 3] = [Rounding::Down, Rounding::Zero, Rounding::Even];

/// `number / 2^by`, rounded.
fn quotient(number: i128, by: u32, rounding: Rounding) -> i128 {
    let unit = 1_i128 << by;
    let (low, rest) = (number.div_euclid(unit), number.rem_euclid(unit));
    let past = match rounding {
        Rounding::Down => false,
        Rounding::Zero => number < 0 && rest > 0,
        Rounding::Even => 2 * rest > unit || 2 * rest == unit && low % 2 != 0,
    };
    low + i128::from(past)
}

/// The least and the greatest number of a word.
fn ends<T: Castable>() -> (i128, i128) {
    if T::SIGNED {
        (-(1 << (T::BITS - 1)), (1 << (T::BITS - 1)) - 1)
    } else {
        (0, (1 << T::BITS) - 1)
    }
}

/// What a word keeps of a number.
fn wrapped<T: Castable>(number: i128) -> i128 {
    let (least, _) = ends::<T>();
    (number - least).rem_euclid(1 << T::BITS) + least
}

fn side<T: Castable>(number: i128) -> Side {
    let (least, most) = ends::<T>();
    match number {
        _ if number < least => Side::Below,
        _ if number > most => Side::Above,
        _ => Side::Fits,
    }
}

/// Asserts that an outcome stands for a number.
fn assert_stands<T: Castable>(outcome: Outcome<T>, number: i128, of: &str) {
    assert_eq!(outcome.wrapped.to_wide(), wrapped::<T>(number), "{of}");
    assert!(outcome.side == side::<T>(number), "{of}");
}

/// All numbers of a word of 8 bits.
fn all<T: Castable>() -> impl Iterator<Item = T> {
    let (least, most) = ends::<T>();
    (least..=most).map(T::from_wide)
}

/// The conversions and the comparison of one number, with fractions from none to past the width.
fn converted<S: Castable, T: Castable>(from: u32, to: u32) {
    let (least, most) = ends::<T>();
    for a in all::<S>() {
        let exact = a.to_wide() << to;
        let of = &format!("{} from {from} to {to}", a.to_wide());
        assert_stands::<T>(
            convert_of(a, from, to),
            quotient(exact, from, Rounding::Down),
            of,
        );
        for rounding in ROUNDINGS {
            let number = quotient(exact, from, rounding);
            assert_stands::<T>(convert_round_of(a, from, to, rounding), number, of);
            let held: T = saturating_convert_of(a, from, to, rounding);
            assert_eq!(held.to_wide(), number.clamp(least, most), "{of}");
        }
    }
}

fn every_fraction(check: fn(u32, u32)) {
    for from in 0..=9 {
        for to in 0..=9 {
            check(from, to);
        }
    }
}

#[test]
fn every_pair_of_formats_of_8_bits() {
    every_fraction(converted::<i8, i8>);
    every_fraction(converted::<i8, u8>);
    every_fraction(converted::<u8, i8>);
    every_fraction(converted::<u8, u8>);
}

/// A product beside that of wide integers, whose `a b 2^to` has at most 127 bits.
fn multiplied<A: Castable, B: Castable, T: Castable>(a: A, b: B, fractions: (u32, u32, u32)) {
    let (a_frac, b_frac, to) = fractions;
    let exact = (a.to_wide() * b.to_wide()) << to;
    let of = &format!("{} {} {fractions:?}", a.to_wide(), b.to_wide());
    for rounding in ROUNDINGS {
        let number = quotient(exact, a_frac + b_frac, rounding);
        assert_stands::<T>(mul_into_of(a, a_frac, b, b_frac, to, rounding), number, of);
    }
}

/// The products of 8 bits in two formats.
fn every_product<A: Castable, B: Castable>() {
    for fractions in [
        (0, 0, 0),
        (3, 5, 4),
        (8, 8, 9),
        (8, 7, 0),
        (1, 0, 3),
        (0, 2, 18),
    ] {
        for a in all::<A>() {
            for b in all::<B>().step_by(5) {
                multiplied::<A, B, i8>(a, b, fractions);
                multiplied::<A, B, u8>(a, b, fractions);
            }
        }
    }
}

#[test]
fn every_product_of_8_bits() {
    every_product::<i8, i8>();
    every_product::<i8, u8>();
    every_product::<u8, u8>();
}

#[test]
fn products_of_other_widths() {
    let mut bits = 0x9e37_79b9_7f4a_7c15_u64;
    for round in 0..20_000 {
        bits = bits
            .wrapping_mul(6_364_136_223_846_793_005)
            .wrapping_add(round);
        let (small, long) = ((bits >> 48) as i16, bits.rotate_left(29));
        multiplied::<i16, i32, i32>(small, long as i32, (8, 16, 16));
        multiplied::<i32, u32, i64>(long as i32, bits as u32, (31, 32, 40));
        multiplied::<u32, u32, u16>(long as u32, bits as u32, (32, 0, 3));
        multiplied::<i64, i16, u64>(long as i64, small, (64, 16, 20));
        multiplied::<i64, i64, i8>(long as i64, bits as i64, (64, 61, 0));
        multiplied::<u64, u64, u64>(long >> 1, bits >> 2, (64, 62, 1));
    }
    for a in [0, 1, u64::MAX] {
        multiplied::<u64, i64, i64>(a, 0, (62, 64, 9));
        multiplied::<u64, i64, i64>(a, -1, (0, 0, 62));
        multiplied::<u64, i64, u64>(a, 1, (0, 0, 62));
    }
    let squared = |to| mul_into_of::<_, _, u64>(u64::MAX, 64, u64::MAX, 64, to, Rounding::Even);
    assert_stands::<u64>(squared(0), 1, "nearly 1");
    assert_stands::<u64>(squared(64), (1 << 64) - 2, "2^64 - 2 and 2^-64");
    assert_stands::<u64>(squared(128), (1 << 65) + 1, "the square");
    assert_stands::<u64>(squared(192), 1 << 64, "the square times 2^64");
}

/// The order of every two numbers.
fn ordered<A: Castable, B: Castable>(a_frac: u32, b_frac: u32) {
    for a in all::<A>() {
        for b in all::<B>().step_by(3) {
            let order = (a.to_wide() << b_frac).cmp(&(b.to_wide() << a_frac));
            assert_eq!(compare_of(a, a_frac, b, b_frac), order);
        }
    }
}

#[test]
fn every_order_of_8_bits() {
    for (a_frac, b_frac) in [(0, 0), (0, 8), (3, 5), (4, 4), (8, 1), (7, 8)] {
        ordered::<i8, i8>(a_frac, b_frac);
        ordered::<i8, u8>(a_frac, b_frac);
        ordered::<u8, i8>(a_frac, b_frac);
    }
}

/// The whole numbers beside every number.
fn whole<T: Castable>() {
    for frac in 0..=T::BITS {
        let unit = 1_i128 << frac;
        for a in all::<T>() {
            let number = a.to_wide();
            let of = &format!("{number} at {frac}");
            let floor = number.div_euclid(unit) * unit;
            let up = (2 * number.abs() + unit).div_euclid(2 * unit) * unit;
            assert_stands(floor_of(a, frac), floor, of);
            assert_stands(frac_of(a, frac), number - floor, of);
            assert_stands(ceil_of(a, frac), -((-number).div_euclid(unit) * unit), of);
            assert_stands(round_of(a, frac), number.signum() * up, of);
            let even = quotient(number, frac, Rounding::Even) * unit;
            assert_stands(round_ties_even_of(a, frac), even, of);
        }
    }
}

#[test]
fn every_whole_number_of_8_bits() {
    whole::<i8>();
    whole::<u8>();
}

/// The row of a finite `f32` in units of `2^-16`, to the nearest, ties to even; nothing where it is past 2^80.
fn row(x: f32) -> Option<i128> {
    let bits = x.to_bits();
    let (field, fraction) = (bits >> 23 & 255, i128::from(bits & 0x7f_ffff));
    let (digits, exponent) = match field {
        0 => (fraction, -149),
        _ => (fraction + (1 << 23), field as i32 - 150),
    };
    let digits = if bits >> 31 == 1 { -digits } else { digits };
    match exponent + 16 {
        up @ 0..=56 => Some(digits << up),
        57.. => None,
        // From 100 places down on, a number of 24 bits is less than a half.
        down => Some(quotient(
            digits,
            down.unsigned_abs().min(100),
            Rounding::Even,
        )),
    }
}

/// Patterns of `f32`, one of every 4099, and those beside each power of two.
fn patterns() -> impl Iterator<Item = f32> {
    let some = (0..=u32::MAX).step_by(4099);
    let powers = (0..512_u32)
        .flat_map(|field| (0..8).map(move |low| (field << 23).wrapping_add(low).wrapping_sub(4)));
    some.chain(powers).map(f32::from_bits)
}

#[test]
fn floats_in_one_format() {
    type Number = FixedI32<16>;
    for x in patterns() {
        if !x.is_finite() {
            assert_eq!(Number::checked_from_num(x), None);
            continue;
        }
        let number = row(x);
        let fitting = number.and_then(|number| i32::try_from(number).ok());
        assert_eq!(
            Number::checked_from_num(x).map(Number::to_bits),
            fitting,
            "{x}"
        );
        let end = if x < 0.0 { i32::MIN } else { i32::MAX };
        assert_eq!(
            Number::saturating_from_num(x).to_bits(),
            fitting.unwrap_or(end),
            "{x}"
        );
        let kept = number.map_or(0, |number| wrapped::<i32>(number) as i32);
        assert_eq!(Number::wrapping_from_num(x).to_bits(), kept, "{x}");
        assert_eq!(
            Number::checked_from_num(f64::from(x)).map(Number::to_bits),
            fitting,
            "{x}"
        );
    }
}

/// The row of an `f64` from `2^44` to `2^72` units of `2^-frac`.
fn far_row(x: f64, frac: u32, rounding: Rounding) -> i128 {
    let bits = x.to_bits();
    let digits = i128::from(bits & 0xf_ffff_ffff_ffff) + (1 << 52);
    let digits = if x < 0.0 { -digits } else { digits };
    match (bits >> 52 & 2047) as i32 - 1075 + frac as i32 {
        up @ 0..=20 => digits << up,
        down => quotient(digits, down.unsigned_abs(), rounding),
    }
}

/// Floats beside each power of two from `2^44` to `2^70` units of `2^-frac`, and between them.
fn far_floats(frac: u32) -> impl Iterator<Item = f64> {
    let patterns = (1067 - u64::from(frac)..1094 - u64::from(frac)).flat_map(|field| {
        let beside = (0..9).map(move |low| (field << 52) + low - 4);
        let between =
            (1..64).map(move |part| (field << 52) + part * 0x3_fff7_1234_5677 % (1 << 52));
        beside.chain(between)
    });
    patterns.flat_map(|bits| [f64::from_bits(bits), -f64::from_bits(bits)])
}

/// Checks each rounding of far floats in one format.
fn far<T: Castable>(frac: u32) {
    let (least, most) = ends::<T>();
    for x in far_floats(frac) {
        for rounding in ROUNDINGS {
            let row = far_row(x, frac, rounding);
            let of = &format!("{x:e} in 2^-{frac}, {rounding:?}");
            let outcome: Option<Outcome<T>> = from_float_round_of(x, frac, rounding);
            assert_stands(outcome.unwrap(), row, of);
            let held: T = saturating_float_of(x, frac, rounding);
            assert_eq!(held.to_wide(), row.clamp(least, most), "{of}");
        }
    }
}

#[test]
fn floats_of_many_units() {
    for frac in [0, 1, 13, 32, 63, 64] {
        far::<i64>(frac);
        far::<u64>(frac);
    }
    far::<i32>(16);
    far::<u8>(8);
}

#[test]
fn floats_by_policy() {
    assert_eq!(FixedI8::<4>::from_num(1.5), FixedI8::from_bits(24));
    let (wrapped, past) = FixedI8::<4>::overflowing_from_num(8.5_f32);
    assert_eq!((wrapped.to_bits(), past), (-120, true));
    assert_eq!(
        FixedI8::<4>::wrapping_from_num(-7.9375),
        FixedI8::from_bits(-127)
    );
    assert_eq!(FixedI64::<0>::saturating_from_num(1e19_f32), FixedI64::MAX);
    assert_eq!(
        FixedU64::<64>::saturating_from_num(f64::INFINITY),
        FixedU64::MAX
    );
}

#[test]
fn infinities_are_held_at_their_ends() {
    assert_eq!(
        FixedI16::<4>::saturating_from_num(f32::INFINITY),
        FixedI16::MAX
    );
    assert_eq!(
        FixedI16::<4>::saturating_from_num(f64::NEG_INFINITY),
        FixedI16::MIN
    );
    assert_eq!(
        FixedU64::<64>::saturating_from_num(f64::NEG_INFINITY),
        FixedU64::MIN
    );
}

#[test]
fn floats_out_are_those_of_the_language() {
    let step = |bits: &i64| bits.checked_add((1 << 44) + 12345);
    for bits in std::iter::successors(Some(i64::MIN), step) {
        let number = FixedI64::<20>::from_bits(bits);
        assert_eq!(number.to_float::<f64>(), bits as f64 / 1048576.0);
        assert_eq!(number.to_float::<f32>(), bits as f32 / 1048576.0);
        assert_eq!(bits.to_float::<f64>(), bits as f64);
        let narrow = FixedI32::<20>::from_bits((bits >> 32) as i32);
        assert_eq!(FixedI32::<20>::from_num(narrow.to_float::<f64>()), narrow);
    }
}

#[test]
fn truth_values_are_one_and_nothing() {
    assert_eq!(FixedI32::<16>::from_num(true), FixedI32::from_bits(65536)); // 1
    assert_eq!(FixedU8::<4>::from_num(false), FixedU8::ZERO);
    assert_eq!(FixedI8::<7>::checked_from_num(true), None);
    assert_eq!(FixedI8::<7>::saturating_from_num(true), FixedI8::MAX);
}

#[test]
fn roundings_are_named() {
    let price = FixedI32::<16>::from_bits(-163840); // -2.5
    assert_eq!(i32::checked_from_num_round(price, Rounding::Down), Some(-3));
    assert_eq!(price.strict_to_num_round::<i32>(Rounding::Even), -2);
    assert_eq!(
        price.to_num_round::<FixedI16<0>>(Rounding::Zero),
        FixedI16::from_bits(-2)
    );
    assert_eq!(
        FixedI8::<1>::unwrapped_from_num_round(0.75_f32, Rounding::Down),
        FixedI8::from_bits(1)
    );
}

/// Floats beside every number of 8 bits: the numbers themselves, what is next to them, and the ends of floats.
#[test]
fn floats_beside_numbers() {
    let ends = [
        0.0,
        -0.0,
        f64::MIN_POSITIVE,
        5e-324,
        f64::MAX,
        f64::INFINITY,
        1e-30,
        1e19,
    ];
    for frac in 0..=8 {
        for bits in i8::MIN..=i8::MAX {
            let exact = f64::from(bits) / f64::from(1_u32 << frac);
            let near = [
                exact,
                exact * (1.0 + f64::EPSILON),
                exact * (1.0 - f64::EPSILON),
            ];
            for x in near.into_iter().chain(ends).flat_map(|x| [x, -x]) {
                assert_eq!(compare_float_of(bits, frac, x), exact.partial_cmp(&x));
                let narrow = x as f32;
                assert_eq!(
                    compare_float_of(bits, frac, narrow),
                    exact.partial_cmp(&f64::from(narrow))
                );
            }
            assert_eq!(compare_float_of(bits, frac, f64::NAN), None);
        }
    }
    let odd = FixedI64::<0>::from_bits((1 << 53) + 1);
    assert_eq!(
        odd.compare_float(9_007_199_254_740_992.0),
        Some(Ordering::Greater)
    );
    assert_eq!(
        odd.compare_float(9_007_199_254_740_994.0),
        Some(Ordering::Less)
    );
    assert!(FixedU64::<64>::from_bits(1).equals_float(0.5_f64.powi(64)));
    assert!(!FixedU64::<64>::from_bits(u64::MAX).equals_float(1.0_f32));
}
