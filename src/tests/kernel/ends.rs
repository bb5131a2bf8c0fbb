// Made by `make package` of crates/tests_kernel/src/ends.rt, which is proved: changes go there.

//! The ends of every word, with no fraction, with one integer bit and with none.

use super::calls::Call;
use super::named::{WordName, check_magnitude, check_number, check_rows, greatest};
use crate::word::Side::{Above, Below, Fits};

#[test]
fn signed_bytes() {
    check_rows(
        WordName::I8,
        &[
            (Call::Mul, -128, -128, 0, 0, Above),
            (Call::Mul, -128, -128, 7, -128, Above),
            (Call::Mul, -128, -128, 8, 64, Fits),
            (Call::Div, -128, -1, 0, -128, Above),
            (Call::Div, -128, -1, 7, 0, Above),
            (Call::Div, -128, -1, 8, 0, Above),
            (Call::Recip, 1, 0, 0, 1, Fits),
            (Call::Recip, 1, 0, 7, 0, Above),
            (Call::Recip, 1, 0, 8, 0, Above),
            (Call::Sqrt, 127, 0, 0, 11, Fits),
            (Call::Sqrt, 127, 0, 7, 127, Fits),
            (Call::Sqrt, 127, 0, 8, -76, Above),
            (Call::DivEuclidInt, -1, 2, 0, -1, Fits),
            (Call::DivEuclidInt, -1, 2, 7, -128, Fits),
            (Call::DivEuclidInt, -1, 2, 8, 0, Below),
            (Call::Signum, 5, 0, 0, 1, Fits),
            (Call::Signum, 5, 0, 7, -128, Above),
            (Call::Signum, 5, 0, 8, 0, Above),
            (Call::RemInt, -128, -128, 0, 0, Fits),
            (Call::RemInt, -128, -128, 7, -128, Fits),
            (Call::RemInt, -128, -128, 8, -128, Fits),
            (Call::NextMultipleOf, 127, -128, 0, 0, Fits),
            (Call::NextMultipleOf, 127, -128, 7, 0, Fits),
            (Call::NextMultipleOf, 127, -128, 8, 0, Fits),
        ],
    );
}

#[test]
fn unsigned_bytes() {
    check_rows(
        WordName::U8,
        &[
            (Call::Mul, 255, 255, 0, 1, Above),
            (Call::Mul, 255, 255, 7, 252, Above),
            (Call::Mul, 255, 255, 8, 254, Fits),
            (Call::Div, 255, 1, 0, 255, Fits),
            (Call::Div, 255, 1, 7, 128, Above),
            (Call::Div, 255, 1, 8, 0, Above),
            (Call::Recip, 255, 0, 0, 0, Fits),
            (Call::Recip, 255, 0, 7, 64, Fits),
            (Call::Recip, 255, 0, 8, 1, Above),
            (Call::Sqrt, 255, 0, 0, 15, Fits),
            (Call::Sqrt, 255, 0, 7, 180, Fits),
            (Call::Sqrt, 255, 0, 8, 255, Fits),
        ],
    );
}

/// A kernel with its operands, and its number by sign and magnitude.
type End = (Call, i128, i128, bool, u128);

/// That the kernels answer so, at words of that name and with that fraction.
fn check_ends(word: WordName, frac: u32, ends: &[End]) {
    for &(call, a, b, below_zero, magnitude) in ends {
        check_magnitude(word, call, (a, b, frac), (below_zero, magnitude));
    }
}

fn signed_ends(word: WordName, frac: u32) {
    let most = greatest(word) as i128;
    let least = -1 - most;
    let half = least.unsigned_abs();
    if frac <= 64 {
        let unit = 1_u128 << frac;
        let left = if frac == 0 { 0 } else { half };
        let square = half.wrapping_mul(half) >> frac;
        check_ends(
            word,
            frac,
            &[
                (Call::Mul, least, least, false, square),
                (Call::Div, least, -1, false, half.wrapping_mul(unit)),
                (Call::DivEuclidInt, -1, 2, true, unit),
                (Call::Signum, 5, least, false, unit),
                (Call::NextMultipleOf, most, least, false, 0),
                (Call::RemInt, least, least, true, left),
            ],
        );
        if frac < 64 {
            let number = (false, unit.wrapping_mul(unit));
            check_magnitude(word, Call::Recip, (1, least, frac), number);
        }
    }
}

fn unsigned_ends(word: WordName, frac: u32) {
    let most = greatest(word) as i128;
    let size = most.unsigned_abs();
    if frac <= 64 && size > 0 {
        let unit = 1_u128 << frac;
        let square = size.wrapping_mul(size) >> frac;
        check_ends(
            word,
            frac,
            &[
                (Call::Mul, most, most, false, square),
                (Call::Div, most, 1, false, size.wrapping_mul(unit)),
            ],
        );
        if frac < 64 {
            let number = (false, unit.wrapping_mul(unit) / size);
            check_magnitude(word, Call::Recip, (most, most, frac), number);
        }
    }
}

#[test]
fn wider_words() {
    for frac in [0, 15, 16] {
        signed_ends(WordName::I16, frac);
        unsigned_ends(WordName::U16, frac);
    }
    for frac in [0, 31, 32] {
        signed_ends(WordName::I32, frac);
        unsigned_ends(WordName::U32, frac);
    }
    for frac in [0, 63, 64] {
        signed_ends(WordName::I64, frac);
        unsigned_ends(WordName::U64, frac);
    }
}

#[test]
fn roots_of_the_ends() {
    for (word, greatest, roots) in [
        (WordName::I16, 32767, [(0, 181), (15, 32767), (16, 46340)]),
        (WordName::U16, 65535, [(0, 255), (15, 46340), (16, 65535)]),
        (
            WordName::I32,
            2147483647,
            [(0, 46340), (31, 2147483647), (32, 3037000499)],
        ),
        (
            WordName::U32,
            4294967295,
            [(0, 65535), (31, 3037000499), (32, 4294967295)],
        ),
        (
            WordName::I64,
            9223372036854775807,
            [
                (0, 3037000499),
                (63, 9223372036854775807),
                (64, 13043817825332782211),
            ],
        ),
        (
            WordName::U64,
            18446744073709551615,
            [
                (0, 4294967295),
                (63, 13043817825332782211),
                (64, 18446744073709551615),
            ],
        ),
    ] {
        for (frac, root) in roots {
            check_number(word, Call::Sqrt, greatest, frac, root);
        }
    }
}
