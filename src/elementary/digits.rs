// Made by `make package` of crates/fixed_elementary/src/digits.rt, which is proved: changes go there.

//! The root of a quotient of up to 193 bits: first the root of its first digits, then one binary digit in each turn.

use crate::root::root_of_double;

/// The root of the quotient's first digits, the remainder of that root, and the remainder of the quotient.
#[derive(Clone, Copy)]
struct RootSoFar {
    root: u128,
    remainder: u128,
    rest: u128,
}

/// One more binary digit of a quotient, and the remainder.
#[derive(Clone, Copy)]
struct Digit {
    digit: u128,
    rest: u128,
}

/// Returns the power of two to begin with, whose quotient fits a word. From exponent 126 on, `2^exponent` is a power of
/// 4 times it.
fn first_of(exponent: u32) -> u128 {
    if exponent % 2 == 0 {
        1 << 126
    } else {
        1 << 127
    }
}

/// Returns the root of the quotient of a dividend that fits a word.
fn begin(a: u64, dividend: u128) -> RootSoFar {
    let divisor = u128::from(a);
    let quotient = dividend / divisor;
    let root = root_of_double(quotient) as u128;
    RootSoFar {
        root,
        remainder: quotient - root * root,
        rest: dividend % divisor,
    }
}

/// Returns the quotient and the remainder of twice `rest`. Precondition: `rest` is below `a`.
#[inline]
fn divide_twice(rest: u128, a: u64) -> Digit {
    let divisor = u128::from(a);
    let twice = 2 * rest;
    if divisor <= twice {
        Digit {
            digit: 1,
            rest: twice - divisor,
        }
    } else {
        Digit {
            digit: 0,
            rest: twice,
        }
    }
}

/// Returns the root with one more digit, which two more digits of the quotient determine.
#[inline]
fn find_digit(part: RootSoFar, a: u64) -> RootSoFar {
    let first = divide_twice(part.rest, a);
    let second = divide_twice(first.rest, a);
    let whole = 4 * part.remainder + 2 * first.digit + second.digit;
    let trial = 4 * part.root + 1;
    if trial <= whole {
        RootSoFar {
            root: 2 * part.root + 1,
            remainder: whole - trial,
            rest: second.rest,
        }
    } else {
        RootSoFar {
            root: 2 * part.root,
            remainder: whole,
            rest: second.rest,
        }
    }
}

/// Returns the root of `2^exponent / a`, rounded down. Preconditions: `exponent` is from 126 to 192, and `a` is above
/// 0.
pub(crate) fn recip_root_by_digits(a: u64, exponent: u32) -> u128 {
    let mut part = begin(a, first_of(exponent));
    for i in 0..(exponent - 126) / 2 {
        part = find_digit(part, a);
    }
    part.root
}
