// Made by `make package` of crates/tests_kernel/src/exhaustive.rt, which is proved: changes go there.

//! Every byte and every pair of bytes, and each length of the multiply-add over a grid.

use super::calls::{Call, answer, product, sum_of_product};
use super::plain::{euclidean, left_of, moved, multiple, quotient, signed_byte, unsigned_byte};

/// What is left of a number, and whether it does not fit.
type Left = Option<(i64, bool)>;

fn signed(call: Call, a: i8, b: i8, frac: u32) -> Left {
    signed_byte(answer(call, a, b, frac))
}

fn unsigned(call: Call, a: u8, b: u8, frac: u32) -> Left {
    unsigned_byte(answer(call, a, b, frac))
}

/// The product of signed bytes by the call that gives its verdict.
fn judged_product(a: i8, b: i8, frac: u32) -> Left {
    let (left, verdict) = product(a, b, frac)?;
    Some((left as i64, verdict))
}

fn judged_sum(a: i8, b: i8, c: i8, length: i32) -> Left {
    let (left, verdict) = sum_of_product(a, b, c, length)?;
    Some((left as i64, verdict))
}

#[test]
fn every_product() {
    for frac in [0_i32, 1, 4, 7, 8] {
        let places = frac.unsigned_abs();
        for a in 0..=255_u8 {
            for b in 0..=255_u8 {
                let number = moved((a as i64).wrapping_mul(b as i64), -frac);
                let found = unsigned(Call::Mul, a, b, places);
                let wanted = Some(left_of(number, false));
                assert!(found == wanted, "{a} by {b} at {frac}: {found:?}");
                let (c, d) = (a.cast_signed(), b.cast_signed());
                let number = moved((c as i64).wrapping_mul(d as i64), -frac);
                let (found, judged) = (
                    signed(Call::Mul, c, d, places),
                    judged_product(c, d, places),
                );
                let same = found == Some(left_of(number, true)) && judged == found;
                assert!(same, "{c} by {d} at {frac}: {found:?}");
            }
        }
    }
}

#[test]
fn every_reciprocal() {
    for frac in 0..=8_i32 {
        let places = frac.unsigned_abs();
        let one = moved(1, frac.wrapping_mul(2));
        for a in 1..=255_u8 {
            let b = a.cast_signed();
            let found = unsigned(Call::Recip, a, 0, places);
            let wanted = left_of(quotient(one, a as i64), false);
            assert!(found == Some(wanted), "{a} at {frac}: {found:?}");
            let found = signed(Call::Recip, b, 0, places);
            let wanted = left_of(quotient(one, b as i64), true);
            assert!(found == Some(wanted), "{b} at {frac}: {found:?}");
        }
    }
}

#[test]
fn every_euclidean_quotient() {
    for frac in [0_i32, 4, 7, 8] {
        let places = frac.unsigned_abs();
        for a in -128..=127_i8 {
            for b in -128..=127_i8 {
                if b != 0 {
                    let found = signed(Call::DivEuclid, a, b, places);
                    let wanted = left_of(moved(euclidean(a as i64, b as i64), frac), true);
                    assert!(found == Some(wanted), "{a} by {b} at {frac}: {found:?}");
                    let next = signed(Call::NextMultipleOf, a, b, places);
                    let wanted = left_of(multiple(a as i64, b as i64), true);
                    assert!(next == Some(wanted), "multiple of {b} after {a}: {next:?}");
                }
            }
        }
    }
}

#[test]
fn every_power_of_two() {
    let mut power = 1_i64;
    for a in 0..=255_u8 {
        if power < a as i64 {
            power = moved(power, 1);
        }
        let found = unsigned(Call::NextPowerOfTwo, a, 0, 0);
        let wanted = left_of(power, false);
        assert!(found == Some(wanted), "over {a}: {found:?}");
    }
}

#[test]
fn every_length() {
    let grid = [
        -128_i8, -127, -65, -64, -17, -2, -1, 0, 1, 2, 3, 16, 63, 64, 126, 127,
    ];
    for length in -8..=16_i32 {
        for a in grid {
            for b in grid {
                for c in grid {
                    let scaled = moved((a as i64).wrapping_mul(b as i64), length.wrapping_neg());
                    let number = scaled.wrapping_add(c as i64);
                    let found = judged_sum(a, b, c, length);
                    let same = found == Some(left_of(number, true));
                    assert!(same, "{a} by {b} plus {c} at {length}: {found:?}");
                }
            }
        }
    }
}
