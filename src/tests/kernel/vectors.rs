// Made by `make package` of crates/tests_kernel/src/vectors.rt, which is proved: changes go there.

//! Vectors: the numbers of the crate's own tests and documentation, and the corners of its code.

use super::calls::{Call, add_product, multiply_add, product, ratio, sum_of_product};
use super::named::{WordName, check_rows};
use super::plain::all_hold;
use crate::word::Side::{self, Above, Below, Fits};
use crate::word::{Outcome, Word};

#[test]
fn signed_bytes() {
    check_rows(
        WordName::I8,
        &[
            (Call::Mul, 127, 64, 4, -4, Above),
            (Call::Div, -128, -1, 8, 0, Above),
            (Call::RemEuclidInt, -120, 20, 4, -56, Above),
            (Call::DivEuclid, 120, 32, 4, 48, Fits),
            (Call::DivEuclid, -120, 32, 4, -64, Fits),
            (Call::DivEuclid, 127, 4, 4, -16, Above),
            (Call::DivEuclid, -128, 4, 4, 0, Below),
            (Call::DivEuclidInt, -128, -1, 4, -128, Above),
            (Call::Recip, 32, 0, 7, 0, Above),
            (Call::Recip, -32, 0, 7, 0, Below),
            (Call::NextMultipleOf, 64, 24, 4, 72, Fits),
            (Call::NextMultipleOf, 64, -24, 4, 48, Fits),
            (Call::NextMultipleOf, 127, 126, 4, -4, Above),
            (Call::Signum, 64, 0, 7, -128, Above),
            (Call::Signum, 64, 0, 8, 0, Above),
            (Call::Signum, -128, 0, 8, 0, Below),
            (Call::Dist, -128, 127, 4, -1, Above),
            (Call::Sqrt, 32, 0, 4, 22, Fits),
            (Call::Sqrt, 127, 0, 8, -76, Above),
            (Call::DivEuclid, 68, -8, 4, -128, Fits),
            (Call::DivEuclid, 64, 100, 8, 0, Fits),
            (Call::DivEuclidInt, -64, 2, 8, 0, Below),
            (Call::RemInt, -128, 8, 4, 0, Fits),
            (Call::RemInt, 127, 100, 4, 127, Fits),
            (Call::Rem, -128, -1, 4, 0, Fits),
            (Call::RemEuclid, -128, -1, 4, 0, Fits),
            (Call::RemEuclidInt, -5, 1, 8, -5, Above),
            (Call::NextMultipleOf, 48, -24, 4, 48, Fits),
            (Call::NextMultipleOf, -128, -1, 4, -128, Fits),
            (Call::NextMultipleOf, 127, -1, 4, 127, Fits),
            (Call::Mul, 1, -1, 8, -1, Fits),
            (Call::DivEuclidInt, -1, 2, 8, 0, Below),
            (Call::RemInt, 0, -128, 8, 0, Fits),
            (Call::Recip, -128, 0, 7, -128, Fits),
            (Call::Sqrt, 64, 0, 8, -128, Above),
        ],
    );
}

#[test]
fn unsigned_bytes() {
    check_rows(
        WordName::U8,
        &[
            (Call::Mul, 255, 64, 4, 252, Above),
            (Call::DivEuclid, 255, 4, 4, 240, Above),
            (Call::Sqrt, 255, 0, 8, 255, Fits),
            (Call::Recip, 3, 0, 8, 85, Above),
            (Call::NextPowerOfTwo, 0, 0, 4, 1, Fits),
            (Call::NextPowerOfTwo, 200, 0, 4, 0, Above),
        ],
    );
}

#[test]
fn signed_words_of_32_bits() {
    check_rows(
        WordName::I32,
        &[
            (Call::Add, 2147483647, 1, 16, -2147483648, Above),
            (Call::Add, -2147483648, -1, 16, 2147483647, Below),
            (Call::Add, 2147483647, -2147483648, 16, -1, Fits),
            (Call::Div, -2147483648, 1, 32, 0, Below),
            (Call::Div, -2147483648, -2147483648, 32, 0, Above),
            (Call::Div, -2147483647, -2147483648, 32, -2, Above),
            (Call::Div, -2147483647, -1, 32, 0, Above),
            (Call::Div, -2147483647, 1, 32, 0, Below),
            (Call::RemInt, -2147483648, -1, 16, 0, Fits),
            (Call::RemEuclidInt, -1073741824, 3, 31, 1073741824, Above),
            (Call::RemEuclidInt, -536870912, 3, 31, 1610612736, Above),
            (Call::RemEuclidInt, -536870912, 1, 31, 1610612736, Fits),
            (Call::RemEuclidInt, -1610612736, 1, 32, -1610612736, Above),
        ],
    );
}

#[test]
fn each_kernel_at_a_signed_word() {
    check_rows(
        WordName::I16,
        &[
            (Call::Neg, -5, 0, 0, 5, Fits),
            (Call::Neg, -32768, 0, 0, -32768, Above),
            (Call::Add, 32767, 1, 0, -32768, Above),
            (Call::Sub, -32768, 1, 0, 32767, Below),
            (Call::Dist, -3, 4, 0, 7, Fits),
            (Call::Abs, -32768, 0, 0, -32768, Above),
            (Call::Abs, -7, 0, 0, 7, Fits),
            (Call::Signum, -9, 0, 4, -16, Fits),
            (Call::Signum, 0, 0, 4, 0, Fits),
            (Call::Mul, -3, 8, 4, -2, Fits),
            (Call::MulInt, -300, 200, 4, 5536, Below),
            (Call::Div, -7, 2, 1, -7, Fits),
            (Call::Div, -7, 3, 0, -2, Fits),
            (Call::DivInt, -7, 2, 0, -3, Fits),
            (Call::Recip, -3, 0, 2, -5, Fits),
            (Call::DivEuclid, -7, 2, 1, -8, Fits),
            (Call::DivEuclidInt, -7, 2, 1, -4, Fits),
            (Call::Rem, -7, 4, 0, -3, Fits),
            (Call::Rem, 7, -4, 0, 3, Fits),
            (Call::RemInt, -7, 3, 1, -1, Fits),
            (Call::RemEuclid, -7, -4, 0, 1, Fits),
            (Call::RemEuclidInt, -7, 3, 1, 5, Fits),
            (Call::NextMultipleOf, -7, 4, 0, -4, Fits),
            (Call::NextMultipleOf, -7, -4, 0, -8, Fits),
            (Call::Sqrt, 50, 0, 0, 7, Fits),
        ],
    );
}

#[test]
fn each_kernel_at_an_unsigned_word() {
    check_rows(
        WordName::U16,
        &[
            (Call::Neg, 5, 0, 0, 65531, Below),
            (Call::Add, 65535, 1, 0, 0, Above),
            (Call::Sub, 3, 4, 0, 65535, Below),
            (Call::Dist, 3, 40000, 0, 39997, Fits),
            (Call::Mul, 3, 40, 4, 7, Fits),
            (Call::MulInt, 300, 300, 4, 24464, Above),
            (Call::Div, 7, 2, 1, 7, Fits),
            (Call::DivInt, 7, 2, 0, 3, Fits),
            (Call::Recip, 3, 0, 2, 5, Fits),
            (Call::DivEuclid, 7, 2, 1, 6, Fits),
            (Call::DivEuclidInt, 7, 2, 1, 2, Fits),
            (Call::Rem, 7, 4, 0, 3, Fits),
            (Call::RemInt, 7, 3, 1, 1, Fits),
            (Call::RemEuclid, 7, 4, 0, 3, Fits),
            (Call::RemEuclidInt, 7, 2, 1, 3, Fits),
            (Call::NextMultipleOf, 7, 4, 0, 8, Fits),
            (Call::Sqrt, 50, 0, 1, 10, Fits),
            (Call::NextPowerOfTwo, 32769, 0, 0, 0, Above),
            (Call::NextPowerOfTwo, 33, 0, 0, 64, Fits),
            (Call::Sqrt, 256, 0, 7, 181, Fits),
        ],
    );
}

#[test]
fn reciprocals_with_no_integer_bits() {
    check_rows(
        WordName::U64,
        &[
            (Call::Recip, 1, 0, 64, 0, Above),
            (Call::Recip, 18446744073709551615, 0, 64, 1, Above),
        ],
    );
}

#[test]
fn unsigned_multiply_add_at_each_length() {
    let max = u64::MAX;
    for (lhs, mul, add, length, wrapped, verdict) in [
        (max, max, max, 128, max, false),
        (max, max, max, 127, 0, true),
        (max, max, max - 1, 127, max, false),
        (0, 0, max, -64, max, false),
        (1, 1, max, -64, max, true),
        (1, 1, 0, -63, 9223372036854775808, false),
        (1, 1, max, -63, 9223372036854775807, true),
        (max, max, 0, -64, 0, true),
    ] {
        assert!(
            found(sum_of_product(lhs, mul, add, length), wrapped, verdict),
            "{lhs} by {mul} plus {add} at {length}"
        );
    }
}

#[test]
fn signed_multiply_add_at_each_length() {
    let max = i64::MAX;
    let min = i64::MIN;
    for (lhs, mul, add, length, wrapped, verdict) in [
        (max, max, max, 126, max, false),
        (max, max, max, 125, min, true),
        (max, max, max - 1, 125, max, false),
        (min, min, max, 127, max, false),
        (min, min, max, 126, min, true),
        (min, min, max - 1, 126, max, false),
        (max, min, -max, 126, min, false),
        (max, min, -max, 125, max, true),
        (max, min, -max + 1, 125, min, false),
        (0, 0, max, -64, max, false),
        (1, 1, -1, -63, max, false),
        (1, 1, 0, -63, min, true),
        (1, -1, min, -64, min, true),
        (1, -1, 0, -63, min, false),
        (1, -1, max, -63, -1, false),
        (1, 1, max, -64, max, true),
        (-1, -1, max, -64, max, true),
        (-1, -1, -1, -63, max, false),
        (-1, -1, 0, -63, min, true),
        (1, -1, max, -64, max, true),
        (max, max, min, -64, min, true),
        (min, min, -1, -64, -1, true),
    ] {
        assert!(
            found(sum_of_product(lhs, mul, add, length), wrapped, verdict),
            "{lhs} by {mul} plus {add} at {length}"
        );
    }
}

/// Whether that word was left, and on that side.
fn left<T: Word>(found: Option<Outcome<T>>, wrapped: T, side: Side) -> bool {
    match found {
        Some(outcome) => outcome.wrapped == wrapped && outcome.side == side,
        None => false,
    }
}

#[test]
fn sums_of_products() {
    for (a, mul, add, frac, wrapped, side) in [
        (127_i8, 48, 127, 4, -4, Above),
        (127, 24, -127, 4, 63, Fits),
        (-1, 1, 0, 8, -1, Fits),
    ] {
        let found = multiply_add(a, mul, add, frac);
        assert!(
            left(found, wrapped, side),
            "{a} by {mul} plus {add} at {frac}"
        );
    }
}

#[test]
fn sums_with_products_of_other_places() {
    let max = u64::MAX;
    all_hold(
        "a sum with a product",
        &[
            (
                "of -128, with no integer bits",
                left(add_product(-128_i8, 1, 1, (8, 0, 0)), -128, Above),
            ),
            (
                "of 127 by -128",
                left(add_product(127_i8, -128, 127, (0, 8, 8)), 126, Fits),
            ),
            (
                "of -128 by -128",
                left(add_product(127_i8, -128, -128, (0, 8, 8)), 127, Fits),
            ),
            (
                "of a quarter by three and a half",
                left(add_product(0, 16384, 229376, (16, 16, 16)), 57344_i32, Fits),
            ),
            (
                "of a half, with a rest below 0",
                left(
                    add_product(57344, 32768, -65537, (16, 16, 16)),
                    24575_i32,
                    Fits,
                ),
            ),
            (
                "of the greatest words",
                left(add_product(max, max, max, (0, 64, 64)), max, Fits),
            ),
            (
                "of one, to the greatest",
                left(add_product(-1, 1, 1, (63, 0, 0)), i64::MAX, Fits),
            ),
        ],
    );
}

/// Whether that word was found, with that verdict.
fn found<T: Word>(found: Option<(T, bool)>, wrapped: T, verdict: bool) -> bool {
    match found {
        Some((word, judged)) => word == wrapped && judged == verdict,
        None => false,
    }
}

#[test]
fn verdicts() {
    all_hold(
        "verdict",
        &[
            ("127 by 64 at 4", found(product(127_i8, 64, 4), -4, true)),
            ("255 by 64 at 4", found(product(255_u8, 64, 4), 252, true)),
            ("127 by 16 at 4", found(product(127_i8, 16, 4), 127, false)),
            ("-1 by 1 at 8", found(product(-1_i8, 1, 8), -1, false)),
            ("-128 over -1 at 8", found(ratio(-128_i8, -1, 8), 0, true)),
            (
                "the least over itself at 32",
                found(ratio(i32::MIN, i32::MIN, 32), 0, true),
            ),
            (
                "-(2^31 - 1) over the least at 32",
                found(ratio(-2147483647_i32, i32::MIN, 32), -2, true),
            ),
            ("7 over 2 at 1", found(ratio(7_u8, 2, 1), 7, false)),
            ("-7 over 2 at 0", found(ratio(-7_i8, 2, 0), -3, false)),
            (
                "127 by 48 plus 127 at 4",
                found(sum_of_product(127_i8, 48, 127, 4), -4, true),
            ),
        ],
    );
}
