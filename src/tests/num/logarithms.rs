// Made by `make package` of crates/tests_num/src/logarithms.rt, which is proved: changes go there.

//! Logarithms, against worked answers and a plain computation.

use super::same::all_hold;
use crate::num::*;
use crate::word::{Count, Digits, Steps, Word};

/// The k with `base^k <= bits / one < base^(k+1)`, for bits from 1 to 255, one power at a time.
fn plain_log(bits: u64, one: u64, base: u64) -> i32 {
    let mut power = one;
    let mut raised = bits;
    for k in 0..8 {
        power = power.saturating_mul(base);
        raised = raised.saturating_mul(base);
        if one <= bits && bits < power {
            return k;
        }
        if bits < one && one <= raised {
            return -1 - k;
        }
    }
    8
}

/// The checked logarithms to the bases 2, 10 and 3.
fn checked_logs<T: Word, const F: u32>(x: Fixed<T, F>) -> [Option<i32>; 3] {
    [
        x.checked_int_log2(),
        x.checked_int_log10(),
        x.checked_int_log(3),
    ]
}

fn logs_of_whole(byte: u8) -> [Option<i32>; 3] {
    checked_logs(FixedU8::<0>::from_bits(byte))
}

fn logs_of_eighths(byte: u8) -> [Option<i32>; 3] {
    checked_logs(FixedU8::<3>::from_bits(byte))
}

fn logs_of_fractions(byte: u8) -> [Option<i32>; 3] {
    checked_logs(FixedU8::<8>::from_bits(byte))
}

/// Asserts that the logarithms of a byte over one are those by a power at a time.
fn has_logs(byte: u8, one: u64, found: [Option<i32>; 3]) {
    let bits = u64::from(byte);
    let want = [
        Some(plain_log(bits, one, 2)),
        Some(plain_log(bits, one, 10)),
        Some(plain_log(bits, one, 3)),
    ];
    assert!(found == want, "of {byte} over {one}");
}

#[test]
fn logarithms_of_every_byte() {
    for byte in 1..=255_u8 {
        has_logs(byte, 1, logs_of_whole(byte));
        has_logs(byte, 8, logs_of_eighths(byte));
        has_logs(byte, 256, logs_of_fractions(byte));
    }
}

/// The decimal logarithm of quarters.
fn decimal_log_of_quarters(bits: u8) -> Option<i32> {
    FixedU8::<2> { bits }.checked_int_log10()
}

/// The decimal logarithm of sixty-fourths.
fn decimal_log_of_sixty_fourths(bits: u8) -> Option<i32> {
    FixedU8::<6> { bits }.checked_int_log10()
}

#[test]
fn worked_logarithms() {
    let (x, y) = (FixedU8::<4> { bits: 3 }, FixedI8::<4> { bits: 3 });
    let rows = [
        ("3 / 16 to 2", x.checked_int_log2() == Some(-3)),
        ("10 to 10", decimal_log_of_quarters(40) == Some(1)),
        (
            "just below 10 to 10",
            decimal_log_of_quarters(39) == Some(0),
        ),
        ("7 / 64 to 10", decimal_log_of_sixty_fourths(7) == Some(-1)),
        ("6 / 64 to 10", decimal_log_of_sixty_fourths(6) == Some(-2)),
        ("3 / 16 to 5", x.checked_int_log(5) == Some(-2)),
        ("3 / 16 to 5, with a sign", y.checked_int_log(5) == Some(-2)),
    ];
    all_hold(&rows);
}

/// Whether there is no logarithm of that number without a sign.
fn has_none(bits: u8) -> bool {
    checked_logs(FixedU8::<4> { bits }) == [None; 3]
}

/// Whether there is no logarithm of that number with a sign.
fn has_none_signed(bits: i8) -> bool {
    checked_logs(FixedI8::<4> { bits }) == [None; 3]
}

/// Whether there is no logarithm of 3 / 16 to that base, without and with a sign.
fn is_no_base(base: u32) -> [bool; 2] {
    let (x, y) = (FixedU8::<4> { bits: 3 }, FixedI8::<4> { bits: 3 });
    [
        x.checked_int_log(base).is_none(),
        y.checked_int_log(base).is_none(),
    ]
}

#[test]
fn no_logarithm() {
    let rows = [
        ("base 0", is_no_base(0) == [true; 2]),
        ("base 1", is_no_base(1) == [true; 2]),
        ("0 without a sign", has_none(0)),
        ("0", has_none_signed(0)),
        ("-1", has_none_signed(-1)),
        ("-128", has_none_signed(-128)),
    ];
    all_hold(&rows);
}

/// The logarithms to the bases 2, 10 and 5, the last one also as it is counted, and its count.
fn logs<T: Word, const F: u32>(x: Fixed<T, F>) -> ([i32; 4], u64)
where
    T::Unsigned: Digits<Count>,
{
    let mut steps = Steps::new(Count::new());
    let counted = x.int_log_counted(5, &mut steps);
    (
        [x.int_log2(), x.int_log10(), x.int_log(5), counted],
        steps.ledger().count(),
    )
}

#[test]
fn logarithms_under_their_conditions() {
    for ((found, count), want, most) in [
        (logs(FixedU8::<4> { bits: 3 }), [-3, -1, -2, -2], 52),
        (logs(FixedI8::<4> { bits: 3 }), [-3, -1, -2, -2], 52),
        (logs(FixedU64::<64> { bits: 1 }), [-64, -20, -28, -28], 88),
        (logs(FixedI64::<0> { bits: i64::MAX }), [62, 18, 27, 27], 88),
    ] {
        assert!(found == want && count <= most, "{found:?}, count {count}");
    }
}
