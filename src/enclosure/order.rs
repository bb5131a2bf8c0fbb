// Made by `make package` of crates/fixed_enclosure/src/order.rt, which is proved: changes go there.

//! The order of words, which is that of their values.

use crate::word::Ordered;

/// Returns whether the first word is less.
#[inline]
pub(crate) fn is_less<T: Ordered>(a: T, b: T) -> bool {
    a < b
}

/// Returns whether the first word is at most the second.
#[inline]
pub(crate) fn is_at_most<T: Ordered>(a: T, b: T) -> bool {
    a <= b
}

/// Returns the lesser of two words.
#[inline]
pub(crate) fn lesser<T: Ordered>(a: T, b: T) -> T {
    if b < a { b } else { a }
}

/// Returns the greater of two words.
#[inline]
pub(crate) fn greater<T: Ordered>(a: T, b: T) -> T {
    if a < b { b } else { a }
}
