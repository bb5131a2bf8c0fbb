// Made by `make package` of crates/tests_math/src/found.rt, which is proved: changes go there.

//! What a call on words leaves, as plain numbers, and the one assertion on it.

use crate::num::{FixedI8, FixedI32};
use crate::word::{Outcome, Side};

/// What is left of a number, and the side where it lies; nothing where the call has no number.
pub type Found = Option<(i128, Side)>;

/// What an outcome of 64 bits leaves.
pub fn found_of(outcome: Outcome<i64>) -> Found {
    Some((outcome.wrapped as i128, outcome.side))
}

/// Asserts that this is left of the number; the message names the call and its operands.
pub fn check(call: &str, operands: [i128; 3], found: Found, wanted: (i128, Side)) {
    assert!(
        found == Some(wanted),
        "{call} of {operands:?}: {found:?}, not {wanted:?}"
    );
}

/// The same of a number that fits.
pub fn check_fit(call: &str, operands: [i128; 3], found: Found, wanted: i128) {
    check(call, operands, found, (wanted, Side::Fits));
}

/// Asserts what is left by each of these calls.
pub fn check_all(rows: &[(&'static str, Found, (i128, Side))]) {
    for &(call, found, wanted) in rows {
        check(call, [0; 3], found, wanted);
    }
}

/// What the calls of each policy leave of three operations: checked, overflowing, saturating, wrapping.
pub type Left = ([Option<i8>; 3], [(i8, bool); 3], [i8; 3], [i8; 3]);

/// Asserts that the calls of each policy leave this.
pub fn check_left(left: Left, wanted: Left) {
    assert!(left == wanted, "{left:?}, not {wanted:?}");
}

/// The bits of a number, where there is one.
pub fn bits_of(number: Option<FixedI32<16>>) -> Option<i32> {
    match number {
        Some(number) => Some(number.bits),
        None => None,
    }
}

fn short_bits_of<const F: u32>(number: Option<FixedI8<F>>) -> Option<i8> {
    match number {
        Some(number) => Some(number.bits),
        None => None,
    }
}

/// The bits of numbers of 8 bits.
pub fn short_bits<const F: u32>(numbers: [FixedI8<F>; 3]) -> [i8; 3] {
    let [first, second, third] = numbers;
    [first.bits, second.bits, third.bits]
}

/// The bits of numbers of 8 bits, where there is one.
pub fn checked_bits<const F: u32>(numbers: [Option<FixedI8<F>>; 3]) -> [Option<i8>; 3] {
    let [first, second, third] = numbers;
    [
        short_bits_of(first),
        short_bits_of(second),
        short_bits_of(third),
    ]
}

/// The bits of numbers of 8 bits, each with its verdict.
pub fn flagged_bits<const F: u32>(numbers: [(FixedI8<F>, bool); 3]) -> [(i8, bool); 3] {
    let [first, second, third] = numbers;
    [
        (first.0.bits, first.1),
        (second.0.bits, second.1),
        (third.0.bits, third.1),
    ]
}
