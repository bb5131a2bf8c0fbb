// Made by `make package` of crates/fixed_root/src/whole.rt, which is proved: changes go there.

//! Roots of whole numbers, rounded down.

use crate::root::near::{near_double_root, near_root};

/// Returns the root of a number, rounded down: a number near it, or 1 more, and where neither is the root, the one that
/// std finds.
///
/// # Examples
///
/// ```
/// use zugyelmas::root::root_of_word;
///
/// assert_eq!(root_of_word(8), 2);
/// assert_eq!(root_of_word(9), 3);
/// ```
///
/// # Proved
///
/// ```text
/// ensures square_le { result * result ≤ number }
/// ensures next_square_gt { number < (result + 1) * (result + 1) }
/// ```
#[inline]
#[must_use]
pub fn root_of_word(number: u64) -> u64 {
    let pairs = (number | 1).leading_zeros() / 2;
    let near = near_root(number.wrapping_shl(2 * pairs)).wrapping_shr(pairs) as u64;
    let square = near * near;
    if square <= number && number - square <= 4 * near + 3 {
        near + u64::from(number - square > 2 * near)
    } else {
        number.isqrt()
    }
}

/// Does the same for a number of 128 bits.
///
/// # Examples
///
/// ```
/// use zugyelmas::root::root_of_double;
///
/// assert_eq!(root_of_double(1 << 100), 1 << 50);
/// assert_eq!(root_of_double(u128::MAX), u64::MAX);
/// ```
///
/// # Proved
///
/// ```text
/// ensures square_le { result * result ≤ number }
/// ensures next_square_gt { number < (result + 1) * (result + 1) }
/// ```
#[must_use]
pub fn root_of_double(number: u128) -> u64 {
    let pairs = (number | 1).leading_zeros() / 2;
    let near = near_double_root(number.wrapping_shl(2 * pairs)).wrapping_shr(pairs) as u128;
    let square = near * near;
    if square <= number && number - square <= 4 * near + 3 {
        (near + u128::from(number - square > 2 * near)) as u64
    } else {
        number.isqrt() as u64
    }
}

/// Returns the root of `a 2^frac`, rounded down. Precondition: `frac` is at most 64.
///
/// # Examples
///
/// ```
/// use zugyelmas::root::scaled_root;
///
/// assert_eq!(scaled_root(36, 4), 24); // 2.25 has the root 1.5
/// ```
///
/// ```should_panic
/// # use zugyelmas::root::scaled_root;
/// # std::panic::set_hook(Box::new(|_| {}));
/// scaled_root(36, 65); // the fraction is above 64
/// ```
///
/// # Panics
///
/// Panics unless the fraction is at most 64.
///
/// # Proved
///
/// ```text
/// requires { frac ≤ 64 }
/// ensures { pos result ≡ root_of (pos a) frac }
/// ```
///
/// Definitions: [`root_of`].
///
/// [`root_of`]: crate::definitions::root_root
#[inline]
#[track_caller]
#[must_use]
pub fn scaled_root(a: u64, frac: u32) -> u64 {
    assert!(frac <= 64, "precondition: the fraction is at most 64");
    if frac <= 32 && a < 1 << 32 {
        root_of_word(a << frac)
    } else {
        root_of_double((a as u128) << frac)
    }
}
