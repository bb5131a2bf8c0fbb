// Made by `make package` of crates/fixed_natural/src/exponentials.rt, which is proved: changes go there.

//! Powers of e, computed as powers of 2. The exponent of 2 is a product by a constant.

use crate::elementary::exponentials::power_of;
use crate::natural::scaling::{difference, in_places, scaled};
use crate::word::{Outcome, RawWord, Valued, outcome_of_magnitude};

/// Half the logarithm of e to the base 2, in units of `2^-128`, rounded down.
const HALF_LOG2_E: u128 = 0xb8aa_3b29_5c17_f0bb_be87_fed0_691d_3e88;

/// How many fraction bits an exponent of 2 has.
const PLACES: u32 = 63;

/// Converts a magnitude from units of `2^-frac` to units of `2^-(places+1)`.
fn moved(magnitude: u64, frac: u32, places: u32) -> u128 {
    u128::from(magnitude) << (places + 1 - frac)
}

/// Returns the number z such that e to the power of `a 2^-frac` is `2^z` units of `2^-frac`. The result is in units of
/// `2^-places`, and 1 to 4 of them too large. It is `None` only if z is below 0, so that the power is less than a unit.
fn exponent_of<T: RawWord>(a: T, frac: u32, places: u32) -> Option<u128> {
    let offset = in_places(frac, places);
    let units = moved(a.magnitude(), frac, places);
    if a.is_below_zero() {
        difference(offset + 2, scaled(units, HALF_LOG2_E + 1, 0))
    } else {
        Some(offset + scaled(units, HALF_LOG2_E, 0) + 3)
    }
}

/// Returns the number 1 in units of `2^-frac`.
fn one(frac: u32) -> u128 {
    1 << frac
}

/// Returns e to the power of `a 2^-frac`, in units of `2^-frac`. For the result r and the exact power p in units,
/// `r <= p 2^(2^-61)` and `p < r + 1`. e to the power of 0 is exactly 1. If the result is above the range, the outcome
/// stands for some number above the range. Precondition: `frac` is at most the width.
///
/// # Examples
///
/// ```
/// use zugyelmas::natural::exp_of;
/// use zugyelmas::word::{Outcome, Side};
///
/// assert_eq!(exp_of(0_i8, 4), Outcome { wrapped: 16, side: Side::Fits }); // exactly 1
/// // 2.7182.., rounded down to 2.6875
/// assert_eq!(exp_of(16_i8, 4), Outcome { wrapped: 43, side: Side::Fits });
/// // 0.3678.., rounded down to 0.3125
/// assert_eq!(exp_of(-16_i8, 4), Outcome { wrapped: 5, side: Side::Fits });
/// assert_eq!(exp_of(48_i8, 4).side, Side::Above); // 20.0855.. does not fit
/// ```
///
/// ```should_panic
/// # use zugyelmas::natural::exp_of;
/// # use zugyelmas::word::{Outcome, Side};
/// # std::panic::set_hook(Box::new(|_| {}));
/// exp_of(16_i8, 9); // the fraction is above the width
/// ```
///
/// # Panics
///
/// Panics unless the fraction frac is at most the width.
///
/// # Proved
///
/// ```text
/// requires { frac ≤ T.BITS }
/// ensures { (r : ℤ) × IsExp (T.value a) frac r
///     × StandsUpTo T.value T.SIGNED T.BITS r result }
/// ```
#[track_caller]
#[must_use]
pub fn exp_of<T: RawWord>(a: T, frac: u32) -> Outcome<T> {
    assert!(
        frac <= T::BITS,
        "precondition: the fraction frac is at most the width"
    );
    if a.magnitude() == 0 {
        return outcome_of_magnitude(false, one(frac));
    }
    match exponent_of(a, frac, PLACES) {
        Some(exponent) => outcome_of_magnitude(false, power_of(exponent, PLACES, 64)),
        None => outcome_of_magnitude(false, 0),
    }
}
