//! Elementary functions beside their definitions, by natural numbers of any size.

use std::cmp::Ordering;
use std::iter::successors;
use zugyelmas::elementary::{exp2_of, hypot_of, log2_of, recip_sqrt_of};
use zugyelmas::prelude::*;
use zugyelmas::word::{Outcome, Side};

/// A natural number, by its digits to the base 2^32, the lowest first, with no 0 at the end.
#[derive(Clone, PartialEq, Eq)]
struct Natural(Vec<u32>);

impl Natural {
    fn of(number: u128) -> Natural {
        let digits = (0..4).map(|place| (number >> (32 * place)) as u32);
        Natural(digits.collect()).trimmed()
    }

    fn trimmed(mut self) -> Natural {
        while self.0.last() == Some(&0) {
            self.0.pop();
        }
        self
    }

    fn power_of_two(exponent: usize) -> Natural {
        let mut digits = vec![0; exponent / 32];
        digits.push(1 << (exponent % 32));
        Natural(digits)
    }

    fn times(&self, other: &Natural) -> Natural {
        let mut digits = vec![0; self.0.len() + other.0.len()];
        for (place, a) in self.0.iter().enumerate() {
            let mut carry = 0;
            for (more, b) in other.0.iter().enumerate() {
                let sum = u64::from(digits[place + more]) + u64::from(*a) * u64::from(*b) + carry;
                digits[place + more] = sum as u32;
                carry = sum >> 32;
            }
            digits[place + other.0.len()] = carry as u32;
        }
        Natural(digits).trimmed()
    }

    fn plus(&self, other: &Natural) -> Natural {
        let mut carry = 0;
        let places = self.0.len().max(other.0.len()) + 1;
        let digit = |digits: &[u32], place: usize| u64::from(*digits.get(place).unwrap_or(&0));
        let digits = (0..places).map(|place| {
            let sum = digit(&self.0, place) + digit(&other.0, place) + carry;
            carry = sum >> 32;
            sum as u32
        });
        Natural(digits.collect()).trimmed()
    }

    fn squared(&self) -> Natural {
        self.times(self)
    }

    /// How many bits it has.
    fn bits(&self) -> usize {
        let last = self
            .0
            .last()
            .map_or(0, |digit| digit.leading_zeros() as usize);
        32 * self.0.len() - last
    }

    /// The highest bits, as many as are asked for: a multiple of 32, and no more than it has.
    fn highest(&self, bits: usize) -> Natural {
        let moved = self.times(&Natural::power_of_two(32 * self.0.len() - self.bits()));
        Natural(moved.0[moved.0.len() - bits / 32..].to_vec())
    }
}

/// The root, rounded down.
fn root(number: &Natural) -> Natural {
    let places = (0..=number.bits() / 2).rev();
    places.fold(Natural(vec![]), |found, place| {
        let next = found.plus(&Natural::power_of_two(place));
        if next.squared() <= *number {
            next
        } else {
            found
        }
    })
}

/// The number over `2^320`, rounded down.
fn over_unit(number: &Natural) -> Natural {
    Natural(number.0.get(10..).unwrap_or_default().to_vec())
}

impl PartialOrd for Natural {
    fn partial_cmp(&self, other: &Natural) -> Option<Ordering> {
        Some(self.cmp(other))
    }
}

impl Ord for Natural {
    fn cmp(&self, other: &Natural) -> Ordering {
        let by_length = self.0.len().cmp(&other.0.len());
        by_length.then_with(|| self.0.iter().rev().cmp(other.0.iter().rev()))
    }
}

/// The greatest number from `low` on and below `end` of which the test holds, which holds of `low`, and of no number
/// above one of which it does not.
fn greatest(low: u128, end: u128, holds: impl Fn(&Natural) -> bool) -> u128 {
    let (mut low, mut high) = (low, end);
    while high - low > 1 {
        let middle = low + (high - low) / 2;
        if holds(&Natural::of(middle)) {
            low = middle;
        } else {
            high = middle;
        }
    }
    low
}

/// The outcome that stands for a number, by its sign and magnitude.
fn standing<T: Word>(below_zero: bool, magnitude: u128) -> Outcome<T> {
    let end = if below_zero { T::MIN } else { T::MAX };
    let side = match (magnitude <= u128::from(end.magnitude()), below_zero) {
        (true, _) => Side::Fits,
        (false, true) => Side::Below,
        (false, false) => Side::Above,
    };
    let wrapped = T::residue(below_zero, magnitude);
    Outcome { wrapped, side }
}

fn length(a: u64, b: u64) -> u128 {
    let square = |number: u64| Natural::of(number.into()).squared();
    let sum = square(a).plus(&square(b));
    let (a, b) = (u128::from(a), u128::from(b));
    greatest(a.max(b), a + b + 1, |root| root.squared() <= sum)
}

fn recip_root(a: u64, frac: u32) -> u128 {
    let power = Natural::power_of_two(3 * frac as usize);
    let end = 1 << (3 * frac / 2 + 2);
    greatest(0, end, |root| {
        root.squared().times(&Natural::of(a.into())) <= power
    })
}

/// The logarithm of a whole number in units of `2^-places`, rounded down, by a mantissa of 320 bits.
fn logarithm(a: u64, places: u32) -> u128 {
    let mut units = u128::from(63 - a.leading_zeros());
    let mut mantissa = Natural::of(a.into())
        .times(&Natural::power_of_two(319))
        .highest(320);
    for _ in 0..places {
        let square = mantissa.squared();
        units = 2 * units + u128::from(square.bits() == 640);
        mantissa = square.highest(320);
    }
    units
}

/// The roots `2^(2^-place)` in units of `2^-320`.
fn roots_of_two() -> Vec<Natural> {
    let unit = Natural::power_of_two(320);
    let roots = successors(Some(Natural::power_of_two(321)), |last| {
        Some(root(&last.times(&unit)))
    });
    roots.take(65).collect()
}

/// The exponent of the power in units of `2^-frac`, unless that is below 0.
fn exponent<T: Word>(a: T, frac: u32) -> Option<u128> {
    let units = u128::from(frac) << frac;
    let magnitude = u128::from(a.magnitude());
    if a.is_below_zero() {
        units.checked_sub(magnitude)
    } else {
        Some(units + magnitude)
    }
}

/// `2^(exponent / 2^places)`, rounded down, by mantissas of 320 bits; nothing where that has more than 64 bits.
fn power(exponent: u128, places: u32, roots: &[Natural]) -> Option<u128> {
    let whole = exponent >> places;
    if whole >= 64 {
        return None;
    }
    let digits = (0..places).filter(|place| exponent >> (places - 1 - place) & 1 == 1);
    let mantissa = digits.fold(Natural::power_of_two(320), |product, place| {
        over_unit(&product.times(&roots[place as usize + 1]))
    });
    let units = over_unit(&mantissa.times(&Natural::power_of_two(whole as usize)));
    Some(
        units
            .0
            .iter()
            .rev()
            .fold(0, |sum, digit| (sum << 32) + u128::from(*digit)),
    )
}

/// A word's every bit pattern of 8 bits, or else its ends and numbers of every length by a fixed rule.
fn samples<T: Word>(many: u64) -> Vec<T> {
    let word = |bits: u64| T::residue(false, u128::from(bits));
    if T::BITS == 8 {
        return (0..256).map(word).collect();
    }
    let ends = [T::MIN, T::MAX, T::ZERO, T::ONE, T::residue(true, 1)];
    let mut state = 1_u64;
    let drawn = (0..many).map(|turn| {
        state = state
            .wrapping_mul(6_364_136_223_846_793_005)
            .wrapping_add(1_442_695_040_888_963_407);
        word((state ^ (state >> 29)) >> (turn % 64))
    });
    ends.into_iter().chain(drawn).collect()
}

fn lengths_of<T: Word + std::fmt::Debug>() {
    let words = samples::<T>(60);
    for a in &words {
        for b in &words {
            let expected = standing(false, length(a.magnitude(), b.magnitude()));
            assert_eq!(hypot_of(*a, *b), expected, "{a:?} {b:?}");
        }
    }
}

fn recip_roots_of<T: Word + std::fmt::Debug>() {
    for a in samples::<T>(100).into_iter().filter(|a| *a > T::ZERO) {
        for frac in 0..=T::BITS {
            let expected = standing(false, recip_root(a.magnitude(), frac));
            assert_eq!(recip_sqrt_of(a, frac), expected, "{a:?} {frac}");
        }
    }
}

fn logarithms_of<T: Word + std::fmt::Debug>() {
    for a in samples::<T>(40).into_iter().filter(|a| *a > T::ZERO) {
        for frac in 0..=T::BITS {
            let units = logarithm(a.magnitude(), frac);
            let less = u128::from(frac) << frac;
            let expected = standing(units < less, units.abs_diff(less));
            assert_eq!(log2_of(a, frac), expected, "{a:?} {frac}");
        }
    }
}

fn powers_of<T: Word + std::fmt::Debug>(roots: &[Natural]) {
    for a in samples::<T>(40) {
        for frac in 0..=T::BITS {
            let units = exponent(a, frac).map_or(Some(0), |exponent| power(exponent, frac, roots));
            let expected = standing::<T>(false, units.unwrap_or(1 << 64));
            let found = exp2_of(a, frac);
            assert_eq!(found.side, expected.side, "{a:?} {frac}");
            if found.side == Side::Fits {
                assert_eq!(found.wrapped, expected.wrapped, "{a:?} {frac}");
            }
        }
    }
}

#[test]
fn lengths() {
    lengths_of::<i8>();
    lengths_of::<u8>();
    lengths_of::<i16>();
    lengths_of::<u16>();
    lengths_of::<i32>();
    lengths_of::<u32>();
    lengths_of::<i64>();
    lengths_of::<u64>();
}

#[test]
fn reciprocal_roots() {
    recip_roots_of::<i8>();
    recip_roots_of::<u8>();
    recip_roots_of::<i16>();
    recip_roots_of::<u16>();
    recip_roots_of::<i32>();
    recip_roots_of::<u32>();
    recip_roots_of::<i64>();
    recip_roots_of::<u64>();
}

#[test]
fn logarithms() {
    logarithms_of::<i8>();
    logarithms_of::<u8>();
    logarithms_of::<i16>();
    logarithms_of::<u16>();
    logarithms_of::<i32>();
    logarithms_of::<u32>();
    logarithms_of::<i64>();
    logarithms_of::<u64>();
}

/// Each of these lies less than 10^-9 of a unit above a whole number of units.
#[test]
fn logarithms_above_a_whole_number() {
    for a in [1_860_085_729_u32, 3_240_365_059, 3_720_171_458] {
        let expected = standing(true, (32 << 32) - logarithm(a.into(), 32));
        assert_eq!(log2_of(a, 32), expected, "{a}");
    }
}

/// Beside the definition, `2^s <= a^(2^places) < 2^(s + 1)`: s is one less than the bits of that power.
#[test]
fn logarithms_by_powers() {
    for places in 0..=8 {
        for a in 1..=u8::MAX {
            let power = (0..places).fold(Natural::of(a.into()), |power, _| power.squared());
            assert_eq!(logarithm(a.into(), places), power.bits() as u128 - 1);
        }
    }
}

#[test]
fn powers() {
    let roots = roots_of_two();
    powers_of::<i8>(&roots);
    powers_of::<u8>(&roots);
    powers_of::<i16>(&roots);
    powers_of::<u16>(&roots);
    powers_of::<i32>(&roots);
    powers_of::<u32>(&roots);
    powers_of::<i64>(&roots);
    powers_of::<u64>(&roots);
}

/// Beside the definition, `r^(2^frac) <= 2^exponent < (r + 1)^(2^frac)`, for each byte.
#[test]
fn powers_by_powers() {
    for frac in 0..=8 {
        for a in i8::MIN..=i8::MAX {
            let Some(exponent) = exponent(a, frac) else {
                continue;
            };
            let found = exp2_of(a, frac);
            let raised = |units: i8| {
                let units = Natural::of(u128::from(units.unsigned_abs()));
                (0..frac).fold(units, |power, _| power.squared())
            };
            let exact = Natural::power_of_two(exponent as usize);
            if found.side == Side::Fits {
                assert!(raised(found.wrapped) <= exact);
                assert!(found.wrapped == i8::MAX || exact < raised(found.wrapped + 1));
            } else {
                assert!(raised(i8::MIN) <= exact);
            }
        }
    }
}

/// The number and 2 to the power of its logarithm differ by a unit and a `2^-frac` part at most, where the logarithm fits.
#[test]
fn powers_of_logarithms() {
    for frac in 1..=15 {
        for a in 1..=i16::MAX {
            let log = log2_of(a, frac);
            if log.side == Side::Fits {
                let power = exp2_of(log.wrapped, frac).wrapped;
                let (number, one) = (i64::from(a), 1 << frac);
                assert!(power <= a, "{a} {frac}");
                assert!(number * one < (i64::from(power) + 1) * (one + 1), "{a} {frac}");
            }
        }
    }
}

#[test]
fn typed_calls() {
    let length = FixedI32::<16>::from_num(3).checked_hypot(FixedI32::from_num(-4));
    assert_eq!(length, Some(FixedI32::from_num(5)));
    let number = FixedU64::<60>::from_bits(3);
    let exact = recip_root(3, 60);
    assert_eq!(number.checked_recip_sqrt(), None);
    assert_eq!(number.saturating_recip_sqrt(), FixedU64::MAX);
    let wrapped = FixedU64::from_bits(exact as u64);
    assert_eq!(number.wrapping_recip_sqrt(), wrapped);
    assert_eq!(number.overflowing_recip_sqrt(), (wrapped, true));
    let eighth = FixedI32::<16>::from_num(0.125);
    assert_eq!(eighth.strict_log2(), FixedI32::from_num(-3));
    assert_eq!(eighth.strict_log2().strict_exp2(), eighth);
    assert_eq!(FixedI16::<8>::from_num(7).checked_exp2(), None);
    assert_eq!(FixedI16::<8>::MAX.saturating_exp2(), FixedI16::MAX);
    for below in [FixedI16::<8>::ZERO, FixedI16::from_num(-1)] {
        assert_eq!(below.checked_recip_sqrt(), None);
        assert_eq!(below.checked_log2(), None);
    }
}
