// Made by `make package` of crates/tests_kernel/src/rounding.rt, which is proved: changes go there.

//! That the six kernels with a named rounding round as a plain computation does.

use super::plain::{all_hold, quotient, remainder};
use crate::kernel::{
    Rounding, add_prod_round_of, div_int_round_of, div_round_of, mul_add_round_of, mul_round_of,
    recip_round_of,
};
use crate::word::{Outcome, Side, Word};

/// `x / d` with that rounding, from the quotient toward zero and the rest.
fn plain(x: i64, d: i64, rounding: Rounding) -> i64 {
    let toward = quotient(x, d);
    let rest = remainder(x, d).unsigned_abs();
    let by = d.unsigned_abs();
    let away = if (x < 0) == (d < 0) { 1 } else { -1 };
    let twice = rest.wrapping_mul(2);
    let moves = match rounding {
        Rounding::Down => rest != 0 && away < 0,
        Rounding::Zero => false,
        Rounding::Even => twice > by || (twice == by && toward.wrapping_rem(2) != 0),
    };
    if moves {
        toward.wrapping_add(away)
    } else {
        toward
    }
}

/// Whether what was found is left of `x` in a range of 256 numbers, and lies on its side.
fn is_left_of(found: (i64, Side), x: i64, least: i64) -> bool {
    let side = if x < least {
        Side::Below
    } else if x > least.wrapping_add(255) {
        Side::Above
    } else {
        Side::Fits
    };
    found.1 == side && found.0.wrapping_sub(x).wrapping_rem(256) == 0
}

fn is_of(found: Outcome<i8>, x: i64) -> bool {
    is_left_of((found.wrapped as i64, found.side), x, -128)
}

fn is_of_unsigned(found: Outcome<u8>, x: i64) -> bool {
    is_left_of((found.wrapped as i64, found.side), x, 0)
}

#[test]
fn every_pair_of_signed_bytes() {
    for rounding in [Rounding::Down, Rounding::Zero, Rounding::Even] {
        for frac in [0_u32, 3, 8] {
            let one = 1_i64.wrapping_shl(frac);
            for a in -128..=127_i8 {
                for b in -128..=127_i8 {
                    let (x, y) = (a as i64, b as i64);
                    let product = plain(x.wrapping_mul(y), one, rounding);
                    assert!(is_of(mul_round_of(a, b, frac, rounding), product));
                    if b != 0 {
                        let up = plain(x.wrapping_mul(one), y, rounding);
                        assert!(is_of(div_round_of(a, b, frac, rounding), up));
                        let whole = plain(x, y, rounding);
                        assert!(is_of(div_int_round_of(a, b, rounding), whole));
                    }
                }
            }
        }
    }
}

#[test]
fn every_pair_of_unsigned_bytes() {
    for rounding in [Rounding::Down, Rounding::Zero, Rounding::Even] {
        for frac in [0_u32, 3, 8] {
            let one = 1_i64.wrapping_shl(frac);
            for a in 0..=255_u8 {
                for b in 0..=255_u8 {
                    let (x, y) = (a as i64, b as i64);
                    let product = plain(x.wrapping_mul(y), one, rounding);
                    assert!(is_of_unsigned(mul_round_of(a, b, frac, rounding), product));
                    if b != 0 {
                        let up = plain(x.wrapping_mul(one), y, rounding);
                        assert!(is_of_unsigned(div_round_of(a, b, frac, rounding), up));
                        let whole = plain(x, y, rounding);
                        assert!(is_of_unsigned(div_int_round_of(a, b, rounding), whole));
                    }
                }
            }
        }
    }
}

#[test]
fn every_rounded_reciprocal() {
    for rounding in [Rounding::Down, Rounding::Zero, Rounding::Even] {
        for frac in 0..=8_u32 {
            let one = 1_i64.wrapping_shl(frac.wrapping_mul(2));
            for a in 1..=255_u8 {
                let number = plain(one, a as i64, rounding);
                assert!(is_of_unsigned(recip_round_of(a, frac, rounding), number));
                let b = a.cast_signed();
                let number = plain(one, b as i64, rounding);
                assert!(is_of(recip_round_of(b, frac, rounding), number));
            }
        }
    }
}

/// Sums of products with a summand of the same bits as the first factor; the product moves down by the
/// fraction of the second, and in the last call by 8, 0 or -8 places.
#[test]
fn every_rounded_sum() {
    for rounding in [Rounding::Down, Rounding::Zero, Rounding::Even] {
        for frac in [1_u32, 4, 8] {
            let one = 1_i64.wrapping_shl(frac);
            for a in -128..=127_i8 {
                for b in -128..=127_i8 {
                    let (x, y) = (a as i64, b as i64);
                    let product = x.wrapping_mul(y);
                    let sum = plain(product, one, rounding).wrapping_add(x);
                    assert!(is_of(mul_add_round_of(a, b, a, frac, rounding), sum));
                    let found = add_prod_round_of(a, a, b, 8, frac, 8, rounding);
                    assert!(is_of(found, sum));
                    let up = product.wrapping_mul(256).wrapping_add(x);
                    assert!(is_of(add_prod_round_of(a, a, b, 8, 0, 0, rounding), up));
                }
            }
        }
    }
}

/// Ties on both sides of zero beside an even and an odd quotient; quotients by the least number.
#[test]
fn ties() {
    for (x, k, down, zero, even) in [
        (7_i8, 2_i8, 3_i8, 3_i8, 4_i8),
        (5, 2, 2, 2, 2),
        (-7, 2, -4, -3, -4),
        (-5, 2, -3, -2, -2),
        (7, -2, -4, -3, -4),
        (-7, -2, 3, 3, 4),
        (64, -128, -1, 0, 0),
        (-64, -128, 0, 0, 0),
        (127, -128, -1, 0, -1),
        (-128, -128, 1, 1, 1),
    ] {
        for (rounding, quotient) in [
            (Rounding::Down, down),
            (Rounding::Zero, zero),
            (Rounding::Even, even),
        ] {
            let found = div_int_round_of(x, k, rounding);
            assert!(is_of(found, quotient as i64), "{x} by {k}");
        }
    }
}

/// Whether that word was left, and on that side.
fn left<T: Word>(found: Outcome<T>, wrapped: T, side: Side) -> bool {
    found.wrapped == wrapped && found.side == side
}

/// Ties at the ends of a byte; divisors of `2^128`; 64 fraction bits.
#[test]
fn corners() {
    let (least, most) = (i64::MIN, u64::MAX);
    let half = add_prod_round_of(0_i64, least, least, 0, 63, 64, Rounding::Even);
    let below_zero = add_prod_round_of(0_i64, least, 1, 0, 64, 64, Rounding::Down);
    all_hold(
        "corner",
        &[
            ("tie up", is_of(mul_round_of(85, 3, 1, Rounding::Even), 128)),
            (
                "tie down",
                is_of(mul_round_of(85, 3, 1, Rounding::Down), 127),
            ),
            (
                "third",
                left(recip_round_of(3_u8, 8, Rounding::Even), 85, Side::Above),
            ),
            ("half", left(half, 0, Side::Fits)),
            ("just below 0", left(below_zero, -1, Side::Fits)),
        ],
    );
    for (rounding, sum) in [
        (Rounding::Down, 0),
        (Rounding::Zero, 0),
        (Rounding::Even, 1),
    ] {
        let found = add_prod_round_of(0_u64, most, most, 0, 64, 64, rounding);
        assert!(left(found, sum, Side::Fits), "{sum}");
    }
    for (a, rounding, wrapped) in [
        (7_u64, Rounding::Zero, 0x4924_9249_2492_4924),
        (7, Rounding::Even, 0x4924_9249_2492_4925),
        (1, Rounding::Even, 0),
        (most, Rounding::Down, 1),
    ] {
        let found = recip_round_of(a, 64, rounding);
        assert!(left(found, wrapped, Side::Above), "of {a}");
    }
}
