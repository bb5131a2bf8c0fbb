//! Operators and conversions between types, beside plain arithmetic in an `i128`.

use std::cmp::Ordering;
use std::fmt::Debug;
use zugyelmas::prelude::*;
use zugyelmas::{Castable, ConversionError};

/// Each number of a word of 8 bits, or some of a wider one, its ends and those beside 0 among them.
fn numbers<T: Castable>() -> Vec<T> {
    let (least, most) = (T::MIN.to_wide(), T::MAX.to_wide());
    let step = ((most - least) / 255).max(1);
    let some = (0..=255).map(|i| least + i * step);
    let beside = [least, most, -2, -1, 0, 1, 2].into_iter();
    let numbers = some.chain(beside.filter(|number| (least..=most).contains(number)));
    numbers.map(T::from_wide).collect()
}

/// The operators between two formats of different words.
fn ordered<A: Castable, B: Castable, const F: u32, const G: u32>()
where
    Fixed<A, F>: PartialOrd<Fixed<B, G>>,
{
    for a in numbers::<A>() {
        for b in numbers::<B>() {
            let (left, right) = (Fixed::<A, F>::from_bits(a), Fixed::<B, G>::from_bits(b));
            let order = (a.to_wide() << G).cmp(&(b.to_wide() << F));
            assert_eq!(left.partial_cmp(&right), Some(order));
            assert_eq!(left == right, order == Ordering::Equal);
            assert_eq!(left < right, order == Ordering::Less);
            assert_eq!(left >= right, order != Ordering::Less);
        }
    }
}

#[test]
fn operators_between_words() {
    ordered::<i8, u8, 0, 0>();
    ordered::<i8, u8, 4, 7>();
    ordered::<u8, i8, 8, 1>();
    ordered::<i8, i16, 4, 8>();
    ordered::<i16, i8, 15, 0>();
    ordered::<u8, i32, 3, 16>();
    ordered::<i32, u16, 16, 16>();
    ordered::<u32, i16, 0, 12>();
}

/// The operators beside integers, which are numbers with no bit behind the point.
fn beside_integers<A: Castable, B: Castable + Copy, const F: u32>()
where
    Fixed<A, F>: PartialOrd<B>,
{
    for a in numbers::<A>() {
        for b in numbers::<B>() {
            let left = Fixed::<A, F>::from_bits(a);
            let order = a.to_wide().cmp(&(b.to_wide() << F));
            assert_eq!(left.partial_cmp(&b), Some(order));
            assert_eq!(left == b, order == Ordering::Equal);
            assert_eq!(left > b, order == Ordering::Greater);
        }
    }
}

#[test]
fn operators_beside_integers() {
    beside_integers::<i8, i8, 4>();
    beside_integers::<u8, i8, 4>();
    beside_integers::<i16, u8, 3>();
    beside_integers::<i8, u16, 8>();
    beside_integers::<i32, i16, 16>();
    beside_integers::<u32, i32, 7>();
    beside_integers::<i64, u32, 32>();
    beside_integers::<i64, i64, 4>();
    beside_integers::<u64, u64, 1>();
}

/// The same numbers as text, which names no type.
fn assert_all<S: Copy, T>(sources: Vec<S>, exact: impl Fn(S) -> i128, bits: impl Fn(T) -> i128)
where
    T: From<S>,
{
    for source in sources {
        assert_eq!(bits(T::from(source)), exact(source));
    }
}

#[test]
fn lossless_conversions() {
    assert_all(
        numbers::<u8>(),
        |a| a.to_wide() << 16,
        |n: FixedI32<16>| n.to_bits().to_wide(),
    );
    assert_all(
        numbers::<i8>(),
        |a| a.to_wide() << 8,
        |n: FixedI16<8>| n.to_bits().to_wide(),
    );
    assert_all(
        numbers::<u32>(),
        |a| a.to_wide() << 31,
        |n: FixedI64<31>| n.to_bits().to_wide(),
    );
    let numbers_of_8 = numbers::<i8>().into_iter().map(FixedI8::<4>::from_bits);
    assert_all(
        numbers_of_8.collect(),
        |a| a.to_bits().to_wide() << 12,
        |n: FixedI32<16>| n.to_bits().to_wide(),
    );
    let numbers_of_16 = numbers::<u16>().into_iter().map(FixedU16::<16>::from_bits);
    assert_all(
        numbers_of_16.collect(),
        |a| a.to_bits().to_wide() << 15,
        |n: FixedI32<31>| n.to_bits().to_wide(),
    );
    assert_eq!(FixedI8::<6>::from(true), FixedI8::from_bits(64)); // 1
    assert_eq!(FixedU8::<7>::from(false), FixedU8::ZERO);
}

/// What `try_from` returns for `units` of `2^-from` in units of `2^-to`.
fn expected<T: Castable>(units: i128, from: u32, to: u32) -> Result<i128, ConversionError> {
    let (up, unit) = (units << to, 1_i128 << from);
    let number = up.div_euclid(unit);
    if !(T::MIN.to_wide()..=T::MAX.to_wide()).contains(&number) {
        Err(ConversionError::Overflow)
    } else if up.rem_euclid(unit) != 0 {
        Err(ConversionError::Inexact)
    } else {
        Ok(number)
    }
}

/// The conversions from a format to one of another word.
fn between<A: Castable, B: Castable, const F: u32, const G: u32>()
where
    Fixed<B, G>: TryFrom<Fixed<A, F>, Error = ConversionError>,
{
    for a in numbers::<A>() {
        let found = Fixed::<B, G>::try_from(Fixed::<A, F>::from_bits(a));
        let found = found.map(|number| number.to_bits().to_wide());
        assert_eq!(found, expected::<B>(a.to_wide(), F, G));
    }
}

#[test]
fn numbers_that_may_not_fit() {
    between::<i8, u8, 4, 4>();
    between::<i8, u8, 0, 8>();
    between::<u8, i8, 7, 3>();
    between::<u8, i8, 4, 6>();
    between::<i16, i8, 8, 4>();
    between::<i32, i16, 16, 8>();
    between::<i64, u32, 20, 3>();
    between::<u64, i64, 2, 1>();
}

/// The conversions between integers and formats.
fn integers<A, B: Castable, const F: u32>()
where
    A: Castable + Debug + TryFrom<Fixed<B, F>, Error = ConversionError>,
    Fixed<B, F>: TryFrom<A, Error = ConversionError>,
{
    for a in numbers::<A>() {
        let found = Fixed::<B, F>::try_from(a).map(|number| number.to_bits().to_wide());
        assert_eq!(found, expected::<B>(a.to_wide(), 0, F));
    }
    for b in numbers::<B>() {
        let found = A::try_from(Fixed::<B, F>::from_bits(b)).map(A::to_wide);
        assert_eq!(found, expected::<A>(b.to_wide(), F, 0));
    }
}

#[test]
fn integers_that_may_not_fit() {
    integers::<i8, i8, 4>();
    integers::<i8, u16, 3>();
    integers::<u8, u8, 0>();
    integers::<u16, i16, 4>();
    integers::<i32, i32, 16>();
    integers::<u64, i32, 8>();
    integers::<i64, u64, 30>();
}

#[test]
fn floats_are_exact() {
    for a in numbers::<i16>() {
        let exact = f32::from(a) / 256.0;
        assert_eq!(f32::from(FixedI16::<8>::from_bits(a)), exact);
        assert_eq!(f64::from(FixedI16::<8>::from_bits(a)), f64::from(exact));
    }
    for a in numbers::<u32>() {
        let exact = f64::from(a) / 65536.0;
        assert_eq!(f64::from(FixedU32::<16>::from_bits(a)), exact);
    }
    assert_eq!(f64::from(FixedI32::<32>::MIN), -0.5);
}

#[test]
fn one_number_of_many_types() {
    let gain = FixedI32::<16>::from_num(2);
    assert!(gain == 2 && gain == 2_u64 && gain < 3 && gain > 1_i8);
    assert!(gain == FixedI16::<8>::from_num(2) && gain <= FixedU64::<40>::from_num(2.5));
    // What has one word needs no name of its fraction.
    assert!(gain == FixedI32::from_num(2) && gain < FixedI32::MAX);
}

/// An error as programs pass it on.
fn passed(number: FixedI32<16>) -> Result<i64, Box<dyn std::error::Error>> {
    Ok(i64::try_from(number)?)
}

#[test]
fn the_error() {
    let said = |number: f64| passed(FixedI32::from_num(number)).map_err(|error| error.to_string());
    assert_eq!(said(-3.0), Ok(-3));
    let inexact = "the number needs more fraction bits";
    assert_eq!(said(1.5), Err(inexact.to_string()));
    let overflow = u8::try_from(FixedI32::<16>::from_num(256)).unwrap_err();
    assert_eq!(overflow.to_string(), "the number does not fit");
}
