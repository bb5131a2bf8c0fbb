//! What Rust expects of the types, beside what the proved sources say.

// The operators on references are the calls under test.
#![allow(clippy::op_ref)]

use std::collections::HashSet;
use std::fmt::Debug;
use std::hash::Hash;
use zugyelmas::filter::{Reply, Shape};
use zugyelmas::kernel::add_of;
use zugyelmas::logs::Base;
use zugyelmas::poly::{PolyReply, horner_of};
use zugyelmas::prelude::*;
use zugyelmas::word::{Count, Outcome, Rounding, Side, Silent, Steps};
use zugyelmas::{Interval, interval};

type Format = FixedI32<16>;

/// 1.5, which a constant can hold.
const GAIN: Format = Format::from_bits(98304);

/// 2, by its bits.
const LEVEL: Format = Format::from_bits(LEVEL_BITS);
const LEVEL_BITS: i32 = Format::from_bits(131072).to_bits();

#[test]
fn operators_on_references() {
    let (gain, level) = (&GAIN, &LEVEL);
    for (found, bits) in [
        ([gain + level, GAIN + level, gain + LEVEL], 98304 + 131072),
        ([gain - level, GAIN - level, gain - LEVEL], 98304 - 131072),
        ([gain * level, GAIN * level, gain * LEVEL], 3 << 16),
        ([gain / level, GAIN / level, gain / LEVEL], 3 << 14),
        ([gain % level, GAIN % level, gain % LEVEL], 98304),
        ([gain & level, GAIN & level, gain & LEVEL], 98304 & 131072),
        ([gain | level, GAIN | level, gain | LEVEL], 98304 | 131072),
        ([gain ^ level, GAIN ^ level, gain ^ LEVEL], 98304 ^ 131072),
        ([gain * &2, GAIN * &2, gain * 2], 3 << 16),
        ([gain / &2, GAIN / &2, gain / 2], 3 << 14),
        ([gain % &2, GAIN % &2, gain % 2], 98304),
        ([gain << &2, GAIN << &2, gain << 2], 98304 << 2),
        ([gain >> &2, GAIN >> &2, gain >> 2], 98304 >> 2),
        ([-gain, -GAIN, -&GAIN], -98304),
        ([!gain, !GAIN, !&GAIN], !98304),
    ] {
        assert_eq!(found, [Format::from_bits(bits); 3]);
    }
}

#[test]
fn assigning_operators_with_references() {
    let mut number = GAIN;
    number += &LEVEL; // 3.5
    number -= &GAIN; // 2
    number *= &GAIN; // 3
    number /= &LEVEL; // 1.5
    number *= &5; // 7.5
    number %= &LEVEL; // 1.5
    number <<= &1; // 3
    number ^= &LEVEL; // 1
    assert_eq!(number, Format::from_bits(1 << 16));
}

/// The sum by a bound that many generic crates have.
fn sum_of_two<T>(a: &T, b: &T) -> T
where
    for<'a> &'a T: std::ops::Add<&'a T, Output = T>,
{
    a + b
}

#[test]
fn sums_and_products_of_iterators() {
    assert_eq!(sum_of_two(&GAIN, &LEVEL), Format::from_bits(229376)); // 3.5
    let numbers = [GAIN, LEVEL, GAIN];
    let (sum, product) = (Format::from_bits(5 << 16), Format::from_bits(9 << 15)); // 5, 4.5
    assert_eq!(numbers.iter().sum::<Format>(), sum);
    assert_eq!(numbers.into_iter().sum::<Format>(), sum);
    assert_eq!(numbers.iter().product::<Format>(), product);
    assert_eq!(numbers.into_iter().product::<Format>(), product);
    assert_eq!([].iter().sum::<Format>(), Format::ZERO);
    assert_eq!([].iter().product::<Format>(), Format::from_bits(1 << 16));
    // 1 does not fit here, and is no factor.
    let half = FixedI8::<7>::from_bits(64);
    assert_eq!([half, half].iter().product::<FixedI8<7>>(), half >> 1);
}

#[test]
#[should_panic(expected = "the number 1 fits")]
fn a_product_of_nothing_without_a_one() {
    let _ = [].iter().product::<FixedI8<7>>();
}

#[test]
#[cfg_attr(debug_assertions, should_panic(expected = "the number fits"))]
fn a_sum_that_does_not_fit() {
    let numbers = [FixedI8::<4>::MAX, FixedI8::DELTA];
    assert_eq!(numbers.iter().sum::<FixedI8<4>>(), FixedI8::MIN);
}

/// 1 + x/2 + x^2/4, or the step whose value does not fit.
fn polynomial(x: i16) -> Result<i16, usize> {
    let value = Result::from(horner_of(&[256, 128, 64], x, 8))?;
    Ok(value)
}

#[test]
fn replies_as_results() {
    assert_eq!(polynomial(128), Ok(336)); // 1.3125 at 1/2
    // Below 128 the value is 1/2 and some 32 first, and then at the coefficient 0 some 4,160.
    assert_eq!(polynomial(i16::MAX), Err(0));
    assert_eq!(Result::from(Reply::Value(5_i8)), Ok(5));
    assert_eq!(Result::from(Reply::<i8>::Overflow(3)), Err(3));
}

mod beside_std {
    use std::fmt::Binary;
    use std::num::{Saturating, Wrapping};
    use zugyelmas::prelude::*;

    #[test]
    fn the_prelude() {
        let (sum, _) = (Wrapping(255_u8) + Wrapping(1), Saturating(255_u8));
        assert_eq!(sum.0, 0);
        let byte = FixedU8::<4>::MAX;
        assert_eq!(byte.wrapping_add(FixedU8::DELTA), FixedU8::ZERO);
        assert_eq!(byte.saturating_add(FixedU8::DELTA), byte);
        fn digits<T: Binary>(number: T) -> String {
            format!("{number:b}")
        }
        assert_eq!(digits(5_u8), "101");
    }
}

/// The distance of a number from the least one, in the unsigned word, of which the calls are there too.
fn from_least<T: Word, const F: u32>(number: Fixed<T, F>) -> Option<Fixed<T::Unsigned, F>> {
    let least = Fixed::<T, F>::MIN.to_bits().to_unsigned();
    let distance = Fixed::<T::Unsigned, F>::from_bits(number.to_bits().to_unsigned());
    let distance = distance.wrapping_sub(Fixed::from_bits(least));
    distance.checked_add(Fixed::ZERO)
}

#[test]
fn words_beside_a_word() {
    let distance = from_least(FixedI8::<4>::MAX);
    assert_eq!(distance, Some(FixedU8::MAX));
}

/// The greatest of some numbers, 0 where there are none, and how many are 0.
fn greatest<N: Number>(numbers: &[N]) -> (N, usize) {
    let zeros = numbers.iter().filter(|number| **number == N::ZERO);
    let greatest = numbers.iter().max().copied();
    (greatest.unwrap_or_default(), zeros.count())
}

#[test]
fn generic_numbers() {
    assert_eq!(greatest(&[GAIN, LEVEL, Format::ZERO]), (LEVEL, 1));
    assert_eq!(greatest::<FixedU8<8>>(&[]), (FixedU8::ZERO, 0));
}

/// The greater bits of two numbers, and whether they have the same bits. Bits are ordered without a bound that says so.
fn greater_bits<N: Number>(a: N, b: N) -> (N::Bits, bool) {
    (a.to_bits().max(b.to_bits()), a.to_bits() == b.to_bits())
}

#[test]
fn generic_bits() {
    assert_eq!(greater_bits(GAIN, Format::ZERO), (98304, false));
    assert_eq!(greater_bits(FixedU8::<8>::MAX, FixedU8::MAX), (255, true));
}

fn is_plain<T: Clone + Eq + Hash + Debug>(value: T) {
    let values = HashSet::from([value.clone(), value]);
    assert_eq!(values.len(), 1);
}

#[test]
fn derived_traits() {
    is_plain(interval::Interval::new(1_i8, 4));
    is_plain::<Option<Interval<u64>>>(None);
    is_plain(PolyReply::Value(GAIN));
    is_plain(Reply::<u8>::Overflow(1));
    is_plain(Shape::default());
    is_plain(Side::Above);
    is_plain::<Outcome<i8>>(add_of(127, 1));
    is_plain(Rounding::Even);
    is_plain(Base::new(10));
    is_plain(Count::default());
    is_plain(Silent);
    assert_eq!(Steps::<Count>::default(), Steps::new(Count::new()));
    assert_eq!(
        format!("{:?}", Steps::new(Silent)),
        "Steps { ledger: Silent }"
    );
}
