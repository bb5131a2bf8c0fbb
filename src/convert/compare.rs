// Made by `make package` of crates/fixed_convert/src/compare.rt, which is proved: changes go there.

//! Comparisons of numbers of two formats.

use crate::convert::castable::Castable;
use crate::convert::moved::raised;
use crate::word::{Outcome, RawWord, Side};
use core::cmp::Ordering;

/// Returns the order of `a / 2^a_frac` and `b / 2^b_frac`. The number with the larger unit is converted to the format
/// of the other; it need not fit.
///
/// # Examples
///
/// ```
/// use std::cmp::Ordering;
/// use zugyelmas::convert::compare_of;
///
/// assert_eq!(compare_of(24_i8, 4, 384_i16, 8), Ordering::Equal); // both are 1.5
/// assert_eq!(compare_of(24_i8, 4, 385_i16, 8), Ordering::Less); // 1.5, and 1.50390625
/// // -0.0625, and almost 1
/// assert_eq!(compare_of(-1_i8, 4, u64::MAX, 64), Ordering::Less);
/// ```
///
/// # Proved
///
/// ```text
/// ensures { result ≡ exact_order (A.value a) a_frac (B.value b) b_frac }
/// ```
///
/// Definitions: [`exact_order`].
///
/// [`exact_order`]: crate::definitions::convert_convert
#[inline(always)]
#[must_use]
pub fn compare_of<A: Castable, B: Castable>(a: A, a_frac: u32, b: B, b_frac: u32) -> Ordering {
    if b_frac <= a_frac {
        beside(a, raised(b, a_frac - b_frac))
    } else {
        beside(b, raised(a, b_frac - a_frac)).reverse()
    }
}

/// Returns the order of a word and the number of an outcome.
#[inline(always)]
fn beside<T: Castable>(word: T, outcome: Outcome<T>) -> Ordering {
    // That it is in range bounds the word.
    let _sign = word.is_below_zero();
    match outcome.side {
        Side::Above => Ordering::Less,
        Side::Below => Ordering::Greater,
        Side::Fits => order_of(word, outcome.wrapped),
    }
}

/// Returns the order of two words.
#[inline(always)]
fn order_of<T: Castable>(a: T, b: T) -> Ordering {
    a.to_wide().cmp(&b.to_wide())
}
