// Made by `make package` of crates/fixed_natural/src/powers.rt, which is proved: changes go there.

//! Powers of numbers above 0, computed as powers of 2. The exponent of 2 is a product by a logarithm.

use crate::elementary::exponentials::power_of;
use crate::elementary::logarithms::enclosed_log2;
use crate::natural::scaling::{difference, in_places, scaled};
use crate::word::{Outcome, RawWord, Valued, outcome_of_magnitude};

/// Returns a number times `2^64`.
fn wide(number: u64) -> u128 {
    u128::from(number) * (1 << 64)
}

/// Returns the number z such that `a` to the power of `exponent` is `2^z`, where operands and power are in units of
/// `2^-frac`. The result is in units of `2^-57`, and 1 to 4 of them too large. It is `None` only if z is below 0, so
/// that the power is less than a unit.
fn rising(a: u64, frac: u32, exponent: u64) -> Option<u128> {
    let units = enclosed_log2(64, a, 121) + 2;
    let offset = in_places(frac, 121);
    let start = in_places(frac, 57);
    if offset <= units {
        Some(start + scaled(units - offset, wide(exponent), frac) + 2)
    } else {
        difference(start + 1, scaled(offset - units, wide(exponent), frac))
    }
}

/// Returns the same number for the power of `-exponent`, with the same bound.
fn falling(a: u64, frac: u32, exponent: u64) -> Option<u128> {
    let units = enclosed_log2(64, a, 121);
    let offset = in_places(frac, 121);
    let start = in_places(frac, 57);
    if offset <= units {
        difference(start + 1, scaled(units - offset, wide(exponent), frac))
    } else {
        Some(start + scaled(offset - units, wide(exponent), frac) + 2)
    }
}

/// Returns the power with this exponent of 2, at most `2^64`, or 0 if there is no exponent.
fn power_at(exponent: Option<u128>) -> u128 {
    match exponent {
        Some(exponent) => power_of(exponent, 57, 64),
        None => 0,
    }
}

/// Returns `a 2^-frac` to the power of `b 2^-frac`, in units of `2^-frac`. For the result r and the exact power p in
/// units, `r <= p 2^(2^-55)` and `p < r + 1`. A power that is a whole number of up to `2^54` units is exact. If the
/// result is above the range, the outcome stands for some number above the range. Preconditions: `a` is above 0, and
/// `frac` is at most the width.
///
/// # Examples
///
/// ```
/// use zugyelmas::natural::pow_of;
/// use zugyelmas::word::{Outcome, Side};
///
/// // 1.5 cubed is exactly 3.375
/// assert_eq!(pow_of(24_i8, 48, 4), Outcome { wrapped: 54, side: Side::Fits });
/// // 1.4142.., rounded down to 1.375
/// assert_eq!(pow_of(32_i8, 8, 4), Outcome { wrapped: 22, side: Side::Fits });
/// assert_eq!(pow_of(32_i8, -16, 4), Outcome { wrapped: 8, side: Side::Fits }); // 0.5
/// assert_eq!(pow_of(32_i8, 48, 4).side, Side::Above); // 8 does not fit
/// ```
///
/// ```should_panic
/// # use zugyelmas::natural::pow_of;
/// # use zugyelmas::word::{Outcome, Side};
/// # std::panic::set_hook(Box::new(|_| {}));
/// pow_of(0_i8, 16, 4); // the number is not above 0
/// ```
///
/// ```should_panic
/// # use zugyelmas::natural::pow_of;
/// # use zugyelmas::word::{Outcome, Side};
/// # std::panic::set_hook(Box::new(|_| {}));
/// pow_of(32_i8, 16, 9); // the fraction is above the width
/// ```
///
/// # Panics
///
/// Panics unless the fraction frac is at most the width, and the number is above 0.
///
/// # Proved
///
/// ```text
/// requires frac { frac ≤ T.BITS }
/// requires sign { pos 0 <ℤ T.value a }
/// ensures { (r : ℤ) × IsPow (T.value a) (T.value b) frac r
///     × StandsUpTo T.value T.SIGNED T.BITS r result }
/// ```
///
/// Definitions: [`IsPow`].
///
/// [`IsPow`]: crate::definitions::natural_pows
#[track_caller]
#[must_use]
pub fn pow_of<T: RawWord>(a: T, b: T, frac: u32) -> Outcome<T> {
    assert!(
        frac <= T::BITS,
        "precondition: the fraction frac is at most the width"
    );
    assert!(
        !a.is_below_zero() && a.magnitude() > 0,
        "precondition: the number is above 0"
    );
    if b.is_below_zero() {
        outcome_of_magnitude(false, power_at(falling(a.magnitude(), frac, b.magnitude())))
    } else {
        outcome_of_magnitude(false, power_at(rising(a.magnitude(), frac, b.magnitude())))
    }
}
