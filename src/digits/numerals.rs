// Made by `make package` of crates/fixed_digits/src/numerals.rt, which is proved: changes go there.

//! Reading decimals of natural numbers, capped at `2^64`.

/// This number stands for itself and for each larger one.
const CAP: u128 = 18_446_744_073_709_551_616;

fn all_digits(bytes: &[u8]) -> bool {
    bytes.iter().all(|b| b.is_ascii_digit())
}

/// Returns whether the token is not empty, and is `0` or does not begin with 0.
fn begins_as_decimal(token: &[u8]) -> bool {
    match token {
        [] => false,
        [first, rest @ ..] => *first != b'0' || rest.is_empty(),
    }
}

/// Returns whether the token consists of digits, at least one, and is `0` or does not begin with 0.
#[must_use]
pub fn is_decimal(token: &[u8]) -> bool {
    begins_as_decimal(token) && all_digits(token)
}

/// Returns the number that the digits write, or `2^64` if it is larger. Precondition: the token is a decimal, as
/// `is_decimal` tests.
#[must_use]
pub fn value_of(digits: &[u8]) -> u128 {
    let mut value: u128 = 0;
    for b in digits {
        value = (value * 10 + u128::from(*b - b'0')).min(CAP);
    }
    value
}

/// Returns the number that at most 19 digits write, or `None` if a byte is no digit.
fn short_value_of(bytes: &[u8]) -> Option<u64> {
    let mut value: u64 = 0;
    for b in bytes {
        let digit = b.wrapping_sub(b'0');
        if digit > 9 {
            return None;
        }
        value = value * 10 + u64::from(digit);
    }
    Some(value)
}

/// Does what `natural_of` does, and looks at each byte twice.
fn long_natural_of(token: &[u8]) -> Option<u128> {
    if is_decimal(token) {
        Some(value_of(token))
    } else {
        None
    }
}

/// Returns the natural number that the token writes, or `2^64` if it is larger. Returns `None` if the token is not a
/// decimal.
#[must_use]
pub fn natural_of(token: &[u8]) -> Option<u128> {
    if token.len() > 19 {
        long_natural_of(token)
    } else if begins_as_decimal(token) {
        Some(u128::from(short_value_of(token)?))
    } else {
        None
    }
}

/// Returns whether the token begins with a minus, and the bytes after that minus. Without a minus, these are all bytes.
#[must_use]
pub fn sign_of(token: &[u8]) -> (bool, &[u8]) {
    match token {
        [b'-', number @ ..] => (true, number),
        _ => (false, token),
    }
}
