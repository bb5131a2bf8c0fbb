// Made by `make package` of crates/tests_policy/src/guide.rt, which is proved: changes go there.

//! The guide's examples, each on a short run.

use crate::num::{FixedI8, FixedU8};
use crate::tests::guide::controller::{self, Signal, output};
use crate::tests::guide::filter::{self, Level, low_pass};
use crate::tests::guide::generic::{
    left_of, overflowing_sum_of_three, saturating_sum_of_three, strict_sum_of_three, sum_of_three,
    unwrapped_sum_of_three, wrapping_sum_of_three,
};
use crate::tests::guide::invoice::{Amount, total};
use crate::tests::guide::transfer::{Money, transfer};

#[test]
fn three_steps() {
    let sample = Level { bits: 65536 };
    let gain = filter::Gain { bits: 134217728 };
    let mut level = Level { bits: 0 };
    for want in [8192, 15360, 21632] {
        level = low_pass(level, sample, gain);
        assert!(level.bits == want, "{} for {want}", level.bits);
    }
}

#[test]
fn held_at_the_ends() {
    let gain = controller::Gain { bits: 14336 };
    let bias = Signal { bits: 1280 };
    for (error, want) in [(2560, 10240), (12800, 32767), (-12800, -32768)] {
        let held = output(Signal { bits: error }, gain, bias).bits;
        assert!(held == want, "{held} of {error}");
    }
}

#[test]
fn a_payment_and_one_too_large() {
    let mut payer = Money { bits: 256000 };
    let mut payee = Money {
        bits: i64::MAX - 25600,
    };
    let paid = transfer(&mut payer, &mut payee, Money { bits: 25600 });
    assert!(paid.is_some());
    assert!(payer.bits == 230400 && payee.bits == i64::MAX);
    let paid = transfer(&mut payer, &mut payee, Money { bits: 1 });
    assert!(paid.is_none());
    assert!(payer.bits == 230400 && payee.bits == i64::MAX);
}

#[test]
fn three_pieces_and_a_fee() {
    let price = Amount { bits: 5 * 256 + 64 };
    let fee = Amount { bits: 128 };
    assert!(total(price, 3, fee).bits == 4160);
}

/// The sum of three numbers by each policy: checked, saturating, wrapping, overflowing.
fn sums(a: i8, b: i8, c: i8) -> (Option<i8>, i8, i8, (i8, bool)) {
    let number = |bits: i8| FixedI8::<4> { bits };
    let (a, b, c) = (number(a), number(b), number(c));
    let checked = match sum_of_three(a, b, c) {
        Some(sum) => Some(sum.bits),
        None => None,
    };
    let (left, overflows) = overflowing_sum_of_three(a, b, c);
    (
        checked,
        saturating_sum_of_three(a, b, c).bits,
        wrapping_sum_of_three(a, b, c).bits,
        (left.bits, overflows),
    )
}

/// 100 and 20 and 5, and 100 and 100 and -100, whose first sum is out of range.
#[test]
fn three_numbers() {
    let inside = sums(100, 20, 5);
    assert!(inside == (Some(125), 125, 125, (125, false)));
    let outside = sums(100, 100, -100);
    assert!(outside == (None, 27, 100, (100, true)));
}

#[test]
fn three_numbers_that_fit() {
    let a = FixedI8::<4> { bits: 100 };
    let b = FixedI8::<4> { bits: 20 };
    let c = FixedI8::<4> { bits: 5 };
    assert!(strict_sum_of_three(a, b, c).bits == 125);
    assert!(unwrapped_sum_of_three(a, b, c).bits == 125);
}

/// What is left of a stock, by its bits.
fn left_of_bits(stock: i8, taken: i8) -> Option<i8> {
    match left_of(FixedI8::<4> { bits: stock }, FixedI8::<4> { bits: taken }) {
        Some(left) => Some(left.bits),
        None => None,
    }
}

#[test]
fn what_is_left() {
    for (stock, taken, left) in [(5, 3, Some(2)), (3, 5, Some(0)), (100, -100, None)] {
        assert!(left_of_bits(stock, taken) == left, "{taken} of {stock}");
    }
    let none_left = left_of(FixedU8::<4> { bits: 3 }, FixedU8::<4> { bits: 5 });
    assert!(none_left == Some(FixedU8 { bits: 0 }));
}
