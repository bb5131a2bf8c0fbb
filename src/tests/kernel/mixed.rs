// Made by `make package` of crates/tests_kernel/src/mixed.rt, which is proved: changes go there.

//! Sums of words that differ in sign, and rounding to whole numbers.

use crate::kernel::{mixed_add_of, mixed_sub_of, round_to_zero_of};
use crate::word::{Outcome, Side, Word};

/// Whether the word rounds to that whole number.
fn rounds<T: Word>(a: T, frac: u32, whole: T) -> bool {
    frac <= T::BITS && round_to_zero_of(a, frac) == whole
}

/// Whether that word was left, and on that side.
fn left<T: Word>(found: Outcome<T>, wanted: (T, Side)) -> bool {
    found.wrapped == wanted.0 && found.side == wanted.1
}

#[test]
fn sums_of_both_signs() {
    for (a, b, sum, difference) in [
        (32_u8, -48_i8, (240, Side::Below), (80, Side::Fits)),
        (255, -128, (127, Side::Fits), (127, Side::Above)),
        (0, 1, (1, Side::Fits), (255, Side::Below)),
        (255, 127, (126, Side::Above), (128, Side::Fits)),
    ] {
        assert!(left(mixed_add_of(a, b), sum), "{a} + {b}");
        assert!(left(mixed_sub_of(a, b), difference), "{a} - {b}");
    }
    for (a, b, sum, difference) in [
        (-128_i8, 255_u8, (127, Side::Fits), (-127, Side::Below)),
        (127, 255, (126, Side::Above), (-128, Side::Fits)),
        (127, 1, (-128, Side::Above), (126, Side::Fits)),
    ] {
        assert!(left(mixed_add_of(a, b), sum), "{a} + {b}");
        assert!(left(mixed_sub_of(a, b), difference), "{a} - {b}");
    }
}

#[test]
fn rounds_toward_zero() {
    for (bits, frac, whole) in [
        (-120_i8, 4, -112),
        (120, 4, 112),
        (-1, 7, 0),
        (-128, 7, -128),
        (-128, 8, 0),
        (127, 0, 127),
    ] {
        assert!(rounds(bits, frac, whole), "{bits} with {frac}");
    }
    for (bits, frac, whole) in [(255_u8, 8, 0), (255, 7, 128), (255, 1, 254), (15, 4, 0)] {
        assert!(rounds(bits, frac, whole), "{bits} with {frac}");
    }
    assert!(rounds(i64::MIN, 63, i64::MIN) && rounds(u64::MAX, 64, 0));
}
