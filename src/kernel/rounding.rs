// Made by `make package` of crates/fixed_kernel/src/rounding.rt, which is proved: changes go there.

//! Rounding to whole numbers.

use crate::word::{RawWord, Word};

/// Returns `a`, rounded toward zero to a whole number: `2^frac` times the quotient of `a` by `2^frac`, rounded toward
/// zero. It always fits. Precondition: `frac` is at most the width. (This is `round_to_zero` of `fixed`.)
///
/// # Examples
///
/// ```
/// use zugyelmas::kernel::round_to_zero_of;
///
/// assert_eq!(round_to_zero_of(28_i8, 4), 16); // from 1.75 to 1
/// assert_eq!(round_to_zero_of(-28_i8, 4), -16); // from -1.75 to -1
/// ```
///
/// ```should_panic
/// # use zugyelmas::kernel::round_to_zero_of;
/// # std::panic::set_hook(Box::new(|_| {}));
/// round_to_zero_of(28_i8, 9); // the fraction is above the width
/// ```
///
/// # Panics
///
/// Panics unless the fraction frac is at most the width.
///
/// # Proved
///
/// ```text
/// requires { frac ≤ T.BITS }
/// ensures { T.value result ≡ pos (2 ^ frac) *ℤ truncated_quotient (T.value a) (pos (2 ^ frac)) }
/// ```
///
/// Definitions: [`truncated_quotient`].
///
/// [`truncated_quotient`]: crate::definitions::word_quotient
#[track_caller]
#[must_use]
pub fn round_to_zero_of<T: Word>(a: T, frac: u32) -> T {
    assert!(
        frac <= T::BITS,
        "precondition: the fraction frac is at most the width"
    );
    let magnitude = (a.magnitude() as u128 >> frac) << frac;
    T::residue(a.is_below_zero(), magnitude)
}
