// Made by `make package` of crates/tests_kernel/src/policies.rt, which is proved: changes go there.

//! What the policies make of a number on both sides of each end, through the bound.

use super::calls::nearest;
use super::plain::all_hold;
use crate::word::{
    Side, Word, checked_of, clamped_of, nearest_of_whole, outcome_of, overflowing_of,
    saturating_of, strict_of, wrapping_of,
};

/// What checked, overflowing, wrapping and both forms of saturating make of a number, and strict where the
/// number fits.
fn answers<T: Word>(
    below_zero: bool,
    magnitude: u128,
) -> (Option<T>, (T, bool), T, (T, T), Option<T>) {
    let outcome = outcome_of::<T>(below_zero, magnitude);
    let strict = match outcome.side {
        Side::Fits => Some(strict_of(outcome)),
        Side::Above | Side::Below => None,
    };
    (
        checked_of(outcome),
        overflowing_of(outcome),
        wrapping_of(outcome),
        (saturating_of(outcome), clamped_of(outcome)),
        strict,
    )
}

#[test]
fn signed_ends() {
    for (below_zero, magnitude, fits, wrapped, nearest) in [
        (false, 0, true, 0, 0),
        (false, 127, true, 127, 127),
        (false, 128, false, -128, 127),
        (false, 4000, false, -96, 127),
        (true, 128, true, -128, -128),
        (true, 129, false, 127, -128),
        (true, 4000, false, 96, -128),
    ] {
        let exact = if fits { Some(wrapped) } else { None };
        let found = answers::<i8>(below_zero, magnitude);
        let wanted = (exact, (wrapped, !fits), wrapped, (nearest, nearest), exact);
        assert!(found == wanted, "{below_zero} {magnitude}");
    }
}

#[test]
fn unsigned_ends() {
    for (below_zero, magnitude, fits, wrapped, nearest) in [
        (false, 0, true, 0, 0),
        (false, 255, true, 255, 255),
        (false, 256, false, 0, 255),
        (false, 4000, false, 160, 255),
        (true, 0, true, 0, 0),
        (true, 1, false, 255, 0),
        (true, 4000, false, 96, 0),
    ] {
        let exact = if fits { Some(wrapped) } else { None };
        let found = answers::<u8>(below_zero, magnitude);
        let wanted = (exact, (wrapped, !fits), wrapped, (nearest, nearest), exact);
        assert!(found == wanted, "{below_zero} {magnitude}");
    }
}

#[test]
fn nearest_bytes() {
    for (a, b, product, quotient) in [
        (24_i8, 36, 54, 10),
        (64, 32, 127, 32),
        (-128, 127, -128, -16),
        (-128, -1, 8, 127),
        (1, -3, -1, -5),
        (-1, 127, -8, 0),
    ] {
        assert!(nearest(a, b, 4) == Some((product, quotient)), "{a} {b}");
    }
    for (a, b, product, quotient) in [(24_u8, 36, 54, 10), (255, 255, 255, 16), (255, 1, 15, 255)] {
        assert!(nearest(a, b, 4) == Some((product, quotient)), "{a} {b}");
    }
}

#[test]
fn nearest_words() {
    let least = i64::MIN;
    let most = u64::MAX;
    all_hold(
        "nearest",
        &[
            (
                "i16",
                nearest(-32768_i16, -32768, 15) == Some((32767, 32767)),
            ),
            (
                "i16, without integer bits",
                nearest(-32768_i16, -32768, 16) == Some((16384, 32767)),
            ),
            ("u16", nearest(65535_u16, 65535, 16) == Some((65534, 65535))),
            (
                "i32",
                nearest(1_i32 << 30, -4, 0) == Some((-2147483648, -268435456)),
            ),
            ("u32", nearest(7_u32, 2, 1) == Some((7, 7))),
            ("i64", nearest(least, -1, 0) == Some((i64::MAX, i64::MAX))),
            ("u64", nearest(most, most, 64) == Some((most - 1, most))),
        ],
    );
}

#[test]
fn nearest_to_integers() {
    for (whole, word) in [
        (-32768_i16, -128_i8),
        (-129, -128),
        (-128, -128),
        (127, 127),
        (128, 127),
    ] {
        assert!(nearest_of_whole::<i8>(whole) == word, "{whole}");
    }
    all_hold(
        "nearest",
        &[
            ("u8", nearest_of_whole::<u8>(256) == 255),
            ("i64", nearest_of_whole::<i64>(-1 << 100) == i64::MIN),
            ("u64", nearest_of_whole::<u64>(1 << 100) == u64::MAX),
        ],
    );
}
