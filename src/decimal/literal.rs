// Made by `make package` of crates/fixed_decimal/src/literal.rt, which is proved: changes go there.

//! Decimals as constants.

use crate::decimal::reading::magnitude_of;
use crate::word::Rounding;

/// Returns the number of a decimal in units of `2^-frac`, rounded to the nearest, ties to even. Returns `None` if the
/// text is not a decimal, if `frac` is greater than the width, or if the number does not fit into a signed word of that
/// width. Precondition: `width` is 8, 16, 32 or 64.
#[must_use]
pub const fn checked_signed_literal(text: &[u8], frac: u32, width: u32) -> Option<i64> {
    if frac > width {
        return None;
    }
    match magnitude_of(text, frac, Rounding::Even) {
        Ok((below_zero, magnitude)) => signed_within(below_zero, magnitude, width),
        Err(_) => None,
    }
}

/// Returns what `checked_signed_literal` returns, but for an unsigned word. Precondition: `width` is 8, 16, 32 or 64.
#[must_use]
pub const fn checked_unsigned_literal(text: &[u8], frac: u32, width: u32) -> Option<u64> {
    if frac > width {
        return None;
    }
    match magnitude_of(text, frac, Rounding::Even) {
        Ok((below_zero, magnitude)) => unsigned_within(below_zero, magnitude, width),
        Err(_) => None,
    }
}

/// Returns the number of a decimal in units of `2^-frac`, rounded to the nearest, ties to even. Preconditions: `width`
/// is 8, 16, 32 or 64, `frac` is at most the width, and the text is a decimal whose number fits into a signed word of
/// that width.
#[must_use]
pub const fn signed_literal(text: &[u8], frac: u32, width: u32) -> i64 {
    match checked_signed_literal(text, frac, width) {
        Some(bits) => bits,
        None => 0,
    }
}

/// Returns what `signed_literal` returns, but for an unsigned word. The preconditions are the same for such a word.
#[must_use]
pub const fn unsigned_literal(text: &[u8], frac: u32, width: u32) -> u64 {
    match checked_unsigned_literal(text, frac, width) {
        Some(bits) => bits,
        None => 0,
    }
}

/// Returns the number, or `None` if it does not fit into a signed word of that width.
const fn signed_within(below_zero: bool, magnitude: u128, width: u32) -> Option<i64> {
    let end = 1 << (width - 1);
    if below_zero && magnitude <= end {
        Some(-(magnitude as i128) as i64)
    } else if !below_zero && magnitude < end {
        Some(magnitude as i64)
    } else {
        None
    }
}

/// Returns the number, or `None` if it does not fit into an unsigned word of that width.
const fn unsigned_within(below_zero: bool, magnitude: u128, width: u32) -> Option<u64> {
    if magnitude < 1 << width && (magnitude == 0 || !below_zero) {
        Some(magnitude as u64)
    } else {
        None
    }
}
