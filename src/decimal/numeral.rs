// Made by `make package` of crates/fixed_decimal/src/numeral.rt, which is proved: changes go there.

//! The form of decimals, and the numbers that their digits write.

use crate::decimal::error::DecimalError;

/// Digits are read and written in parts of at most this length, each as one number.
pub const PART: usize = 18;

/// Returns whether the text begins with a minus, and the bytes after its sign, if it has one.
#[inline]
#[must_use]
pub const fn sign_of(text: &[u8]) -> (bool, &[u8]) {
    match text {
        [b'-', rest @ ..] => (true, rest),
        [b'+', rest @ ..] => (false, rest),
        _ => (false, text),
    }
}

/// Returns where the run of digits from `from` on ends.
#[inline]
const fn digits_end(bytes: &[u8], from: usize) -> usize {
    let mut at = from;
    while at < bytes.len() && bytes[at].is_ascii_digit() {
        at += 1;
    }
    at
}

/// Returns where the digits after a point at `at` end, or `at` if no point is there.
#[inline]
const fn part_end(bytes: &[u8], at: usize) -> usize {
    if at < bytes.len() && bytes[at] == b'.' {
        digits_end(bytes, at + 1)
    } else {
        at
    }
}

/// Returns where the point is, or where the digits end if there is no point. Fails if the bytes are not an unsigned
/// decimal. An invalid digit is reported by its index, counted with the `before` bytes that precede these.
#[inline]
pub const fn point_of(bytes: &[u8], before: usize) -> Result<usize, DecimalError> {
    let point = digits_end(bytes, 0);
    let end = part_end(bytes, point);
    if end < bytes.len() {
        if bytes[end] == b'.' {
            Err(DecimalError::TooManyPoints)
        } else {
            Err(DecimalError::InvalidDigit(before + end))
        }
    } else if end == (end > point) as usize {
        Err(DecimalError::NoDigits)
    } else {
        Ok(point)
    }
}

/// Reads the digits from `from` on, which continue the number `before`. Returns the number of all digits, and where
/// they end.
#[inline]
const fn run_from(bytes: &[u8], from: usize, before: u64) -> (u64, usize) {
    let mut value = before;
    let mut at = from;
    while at < bytes.len() && bytes[at].is_ascii_digit() {
        value = value * 10 + (bytes[at] - b'0') as u64;
        at += 1;
    }
    (value, at)
}

/// Reads an unsigned decimal of at most 18 bytes in one pass. Returns the number that all its digits write, and how
/// many of them follow the point. `None` decides nothing: the general path reads the bytes.
#[inline]
#[must_use]
pub const fn short_decimal(bytes: &[u8]) -> Option<(u64, usize)> {
    if bytes.len() > PART {
        return None;
    }
    let (whole, point) = run_from(bytes, 0, 0);
    if point == bytes.len() {
        return if point > 0 { Some((whole, 0)) } else { None };
    }
    if bytes[point] != b'.' {
        return None;
    }
    let (value, end) = run_from(bytes, point + 1, whole);
    if end < bytes.len() || end < 2 {
        return None;
    }
    Some((value, end - point - 1))
}

/// Returns the number that the `count` digits from `from` on write. Precondition: these are digits, and at most 18.
#[inline]
#[must_use]
pub const fn value_of(bytes: &[u8], from: usize, count: usize) -> u64 {
    let mut value = 0;
    let mut at = 0;
    while at < count {
        value = value * 10 + (bytes[from + at] - b'0') as u64;
        at += 1;
    }
    value
}
