// Made by `make package` of crates/fixed_elementary/src/reciprocals.rt, which is proved: changes go there.

//! One over the square root.

use crate::elementary::digits::recip_root_by_digits;
use crate::elementary::roots::root_of_whole;
use crate::word::{Outcome, RawWord, outcome_of_magnitude};

/// Returns a power of two. Precondition: the exponent is below 128.
pub(crate) fn power_of_two(exponent: u32) -> u128 {
    1 << exponent
}

/// Returns the quotient of `2^exponent` by a number, rounded down. A power that fits into 64 bits is divided there,
/// since a division of 128 bits takes many times as long.
fn power_over(exponent: u32, a: u64) -> u128 {
    if exponent < 64 {
        u128::from(power_of_two(exponent) as u64 / a)
    } else {
        power_of_two(exponent) / u128::from(a)
    }
}

/// Returns the root of `2^exponent / a`, rounded down.
fn recip_root(a: u64, exponent: u32) -> u128 {
    if exponent < 128 {
        root_of_whole(power_over(exponent, a))
    } else {
        recip_root_by_digits(a, exponent)
    }
}

/// Returns one over the square root of `a 2^-frac`, in units of `2^-frac`, rounded down: the r from 0 on with
/// `r^2 a <= 2^(3 frac) < (r+1)^2 a`. Preconditions: `a` is above 0, and `frac` is at most the width.
///
/// # Examples
///
/// ```
/// use zugyelmas::elementary::recip_sqrt_of;
/// use zugyelmas::word::{Outcome, Side};
///
/// // one over the root of 4 is 0.5
/// assert_eq!(recip_sqrt_of(64_i8, 4), Outcome { wrapped: 8, side: Side::Fits });
/// // 0.7071.., rounded down to 0.6875
/// assert_eq!(recip_sqrt_of(32_i8, 4), Outcome { wrapped: 11, side: Side::Fits });
/// // 8 does not fit
/// assert_eq!(recip_sqrt_of(2_i8, 7), Outcome { wrapped: 0, side: Side::Above });
/// ```
///
/// ```should_panic
/// # use zugyelmas::elementary::recip_sqrt_of;
/// # use zugyelmas::word::{Outcome, Side};
/// # std::panic::set_hook(Box::new(|_| {}));
/// recip_sqrt_of(0_i8, 4); // only numbers above 0 have one
/// ```
///
/// ```should_panic
/// # use zugyelmas::elementary::recip_sqrt_of;
/// # use zugyelmas::word::{Outcome, Side};
/// # std::panic::set_hook(Box::new(|_| {}));
/// recip_sqrt_of(64_i8, 9); // the fraction is above the width
/// ```
///
/// # Panics
///
/// Panics unless the fraction frac is at most the width, and the number is above 0.
///
/// # Proved
///
/// ```text
/// requires frac { frac ≤ T.BITS }
/// requires sign { pos 0 <ℤ T.value a }
/// ensures { StandsFor T.value T.SIGNED T.BITS (exact_recip_sqrt (T.value a) frac) result }
/// ```
///
/// Definitions: [`exact_recip_sqrt`].
///
/// [`exact_recip_sqrt`]: crate::definitions::elementary_elementary_rows
#[track_caller]
#[must_use]
pub fn recip_sqrt_of<T: RawWord>(a: T, frac: u32) -> Outcome<T> {
    assert!(
        frac <= T::BITS,
        "precondition: the fraction frac is at most the width"
    );
    assert!(
        !a.is_below_zero() && a.magnitude() > 0,
        "precondition: the number is above 0"
    );
    outcome_of_magnitude(false, recip_root(a.magnitude(), 3 * frac))
}
