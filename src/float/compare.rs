// Made by `make package` of crates/fixed_float/src/compare.rt, which is proved: changes go there.

//! Comparisons of words and floats.

use crate::convert::{Castable, compare_of};
use crate::float::binary::Binary;
use crate::float::parts::{LEAST, Parts, parts_of};
use core::cmp::Ordering;

/// Returns the order of `a / 2^frac` and the exact value of a float, or `None` for a NaN. Infinities lie beyond every
/// number. Precondition: `frac` is at most the width.
///
/// # Examples
///
/// ```
/// use std::cmp::Ordering;
/// use zugyelmas::float::compare_float_of;
///
/// assert_eq!(compare_float_of(24_i8, 4, 1.5_f64), Some(Ordering::Equal)); // 1.5
/// // 2^64 - 1 and 2^64
/// assert_eq!(compare_float_of(u64::MAX, 0, 18446744073709551616.0), Some(Ordering::Less));
/// assert_eq!(compare_float_of(0_i8, 4, -0.0), Some(Ordering::Equal));
/// assert_eq!(compare_float_of(24_i8, 4, f32::INFINITY), Some(Ordering::Less));
/// assert_eq!(compare_float_of(24_i8, 4, f32::NAN), None);
/// ```
///
/// ```should_panic
/// # use std::cmp::Ordering;
/// # use zugyelmas::float::compare_float_of;
/// # std::panic::set_hook(Box::new(|_| {}));
/// compare_float_of(24_i8, 9, 1.5_f64); // the fraction is above the width
/// ```
///
/// # Panics
///
/// Panics unless the fraction frac is at most the width.
///
/// # Proved
///
/// ```text
/// requires { frac ≤ T.BITS }
/// ensures { result ≡ float_order (T.value a) frac (X.float x) }
/// ```
///
/// Definitions: [`float_order`].
///
/// [`float_order`]: crate::definitions::float_rows
#[inline]
#[track_caller]
#[must_use]
pub fn compare_float_of<T: Castable, X: Binary>(a: T, frac: u32, x: X) -> Option<Ordering> {
    assert!(
        frac <= T::BITS,
        "precondition: the fraction frac is at most the width"
    );
    match parts_of(x.widened()) {
        Some(parts) => Some(beside_parts(a, frac, parts)),
        None => beside_infinity(x),
    }
}

/// Returns the order of a number and a finite float. The float is converted to a word and a number of fraction bits.
#[inline]
fn beside_parts<T: Castable>(a: T, frac: u32, parts: Parts) -> Ordering {
    let digits = signed_digits(parts);
    if parts.scale <= LEAST {
        compare_of(a, frac, digits, (LEAST - parts.scale) as u32)
    } else {
        compare_of(a, frac + (parts.scale - LEAST) as u32, digits, 0)
    }
}

/// Returns the digits with their sign.
#[inline]
fn signed_digits(parts: Parts) -> i64 {
    let digits = parts.digits as i64;
    if parts.below_zero { -digits } else { digits }
}

/// Returns the order of any number and an infinity, or `None` for a NaN.
#[inline]
fn beside_infinity<X: Binary>(x: X) -> Option<Ordering> {
    let wide = x.widened();
    if wide.is_nan() {
        None
    } else if wide < 0.0 {
        Some(Ordering::Greater)
    } else {
        Some(Ordering::Less)
    }
}
