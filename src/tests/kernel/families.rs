// Made by `make package` of crates/tests_kernel/src/families.rt, which is proved: changes go there.

//! Families of cases of the crate's own tests, by plain computations.

use super::calls::{Call, ratio};
use super::named::{WordName, check_magnitude, greatest, multiply_add_in, stands_in, width};
use crate::word::SignedWord;

/// That the kernel of two operands leaves what the word leaves of that number, with its side.
fn check(word: WordName, call: Call, a: i128, b: i128, frac: u32, number: i128) {
    let magnitude = number.unsigned_abs();
    check_magnitude(word, call, (a, b, frac), (number < 0, magnitude));
}

/// `a / b`, rounded toward zero; 0 for a divisor 0.
fn quotient(a: i128, b: i128) -> i128 {
    if b == 0 { 0 } else { a.wrapping_div(b) }
}

/// `a - b q`, with the quotient q rounded toward zero.
fn remainder(a: i128, b: i128) -> i128 {
    a.wrapping_sub(b.wrapping_mul(quotient(a, b)))
}

/// The operations on 128 a and 128 b, or on 128 a and the whole number b, at seven places.
fn seven_places(word: WordName, a: i128, b: i128) {
    let (x, y) = (a.wrapping_mul(128), b.wrapping_mul(128));
    let (times, over, left) = (x.wrapping_mul(b), quotient(x, b), remainder(x, y));
    for (call, number) in [
        (Call::Add, x.wrapping_add(y)),
        (Call::Sub, x.wrapping_sub(y)),
        (Call::Mul, times),
        (Call::Div, over),
        (Call::Rem, left),
        (Call::Neg, x.wrapping_neg()),
    ] {
        check(word, call, x, y, 7, number);
    }
    for (call, number) in [
        (Call::MulInt, times),
        (Call::DivInt, over),
        (Call::RemInt, left),
    ] {
        check(word, call, x, b, 7, number);
    }
}

#[test]
fn sixteen_bits() {
    for (a, b) in [(12_i128, 5_i128), (5, 12)] {
        seven_places(WordName::U16, a, b);
        for (up, down) in [(1_i128, 1_i128), (1, -1), (-1, 1), (-1, -1)] {
            seven_places(WordName::I16, up.wrapping_mul(a), down.wrapping_mul(b));
        }
    }
}

#[test]
fn remainders_by_integers() {
    let word = WordName::I32;
    for a in [-32768_i128, -32767, 32767] {
        for k in [-32768_i128, -32767, 32767, 32768] {
            let left = remainder(a, k);
            let over = if left < 0 {
                left.wrapping_add(k.wrapping_abs())
            } else {
                left
            };
            let (bits, unit) = (a.wrapping_mul(65536), 65536);
            check(word, Call::RemInt, bits, k, 16, left.wrapping_mul(unit));
            check(
                word,
                Call::RemEuclidInt,
                bits,
                k,
                16,
                over.wrapping_mul(unit),
            );
        }
    }
    for (bits, k, frac, left, over) in [
        (-2147483648, -1, 16, 0, 0),
        (-2147483648, 1, 31, 0, 0),
        (-1610612736, 1, 31, -1610612736, 536870912),
        (-1073741824, 1, 31, -1073741824, 1073741824),
        (-536870912, 1, 31, -536870912, 1610612736),
        (0, 1, 31, 0, 0),
        (536870912, 1, 31, 536870912, 536870912),
        (1073741824, 1, 31, 1073741824, 1073741824),
        (1610612736, 1, 31, 1610612736, 1610612736),
        (0, 1, 32, 0, 0),
        (1073741824, 1, 32, 1073741824, 1073741824),
        (-1073741824, 3, 31, -1073741824, 5368709120),
        (-536870912, 3, 31, -536870912, 5905580032),
        (-2147483648, 1, 32, -2147483648, 2147483648),
        (-1610612736, 1, 32, -1610612736, 2684354560),
        (-1073741824, 1, 32, -1073741824, 3221225472),
    ] {
        check(word, Call::RemInt, bits, k, frac, left);
        check(word, Call::RemEuclidInt, bits, k, frac, over);
    }
}

/// The quotient and the remainder of bits by a whole number that is moved up by the fraction.
fn by_whole_number(word: WordName, a: i128, k: i128, frac: u32) {
    if k != 0 && frac <= 32 {
        let moved = k.wrapping_mul(1 << frac);
        check(word, Call::DivInt, a, k, frac, quotient(a, k));
        check(word, Call::RemInt, a, k, frac, remainder(a, moved));
    }
}

#[test]
fn whole_divisors() {
    let unsigned = [
        0_i128, 1, 100, 5555, 65534, 65535, 65536, 4294967294, 4294967295,
    ];
    let signed = [
        -2147483648_i128,
        -2147483647,
        -5555,
        -80,
        -1,
        0,
        1,
        100,
        5555,
        2147483646,
        2147483647,
    ];
    for frac in [0, 1, 16, 31, 32] {
        for a in unsigned {
            for k in unsigned {
                by_whole_number(WordName::U32, a, k, frac);
            }
        }
        for a in signed {
            for k in signed {
                by_whole_number(WordName::I32, a, k, frac);
            }
        }
    }
}

/// That `a mul + add` leaves what the word leaves of that number, with its side; the factor has `frac` places.
fn check_sum(word: WordName, row: (i128, i128, i128, u32), number: i128) {
    let (a, mul, add, frac) = row;
    let found = multiply_add_in(word, a, mul, add, frac);
    let stands = stands_in(word, found, number);
    assert!(stands, "{word:?}: {a} {mul} + {add} at {frac}: {found:?}");
}

/// The greatest number and its half, by one and three, at a fraction that leaves room for three.
fn multiply_add_inside(word: WordName, frac: u32) {
    let m = greatest(word) as i128;
    let h = m / 2;
    if frac < 63 {
        let (one, three) = (1_i128 << frac, 3_i128 << frac);
        for (a, mul, add, number) in [
            (m, one, 0, m),
            (m, one, 1, m.wrapping_add(1)),
            (m, three, m, m.wrapping_mul(4)),
        ] {
            check_sum(word, (a, mul, add, frac), number);
        }
        let (less, lesser) = if is_signed(word) {
            (-1, h.wrapping_neg())
        } else {
            (m, m.wrapping_sub(h).wrapping_add(1))
        };
        check_sum(word, (m, one, less, frac), m.wrapping_add(less));
        let number = h.wrapping_mul(3).wrapping_add(lesser);
        check_sum(word, (h, three, lesser, frac), number);
    }
}

fn is_signed(word: WordName) -> bool {
    matches!(
        word,
        WordName::I8 | WordName::I16 | WordName::I32 | WordName::I64
    )
}

/// The greatest number by a quarter and by itself, with no integer bits.
fn multiply_add_outside(word: WordName) {
    let m = greatest(word) as i128;
    let places = width(word);
    let whole = if is_signed(word) {
        m / 2
    } else {
        m.wrapping_sub(1)
    };
    if places >= 2 && places <= 64 {
        let quarter = 1_i128 << (places - 2);
        check_sum(word, (m, quarter, 0, places), m / 4);
        check_sum(word, (m, m, 0, places), whole);
        check_sum(word, (m, m, m, places), whole.wrapping_add(m));
    }
}

#[test]
fn sums_of_products() {
    for (word, fractions) in [
        (WordName::I8, [0, 4, 5]),
        (WordName::I16, [0, 8, 13]),
        (WordName::I32, [0, 16, 29]),
        (WordName::I64, [0, 32, 61]),
        (WordName::U8, [0, 4, 6]),
        (WordName::U16, [0, 8, 14]),
        (WordName::U32, [0, 16, 30]),
        (WordName::U64, [0, 32, 62]),
    ] {
        for frac in fractions {
            multiply_add_inside(word, frac);
        }
        multiply_add_outside(word);
    }
}

/// The least number by -1, with no integer bits.
fn least_over_minus_one<T: SignedWord>() -> bool {
    match ratio(T::MIN, T::residue(true, 1), T::BITS) {
        Some((bits, verdict)) => bits == T::ZERO && verdict,
        None => false,
    }
}

#[test]
fn least_numbers() {
    assert!(least_over_minus_one::<i8>() && least_over_minus_one::<i16>());
    assert!(least_over_minus_one::<i32>() && least_over_minus_one::<i64>());
}
