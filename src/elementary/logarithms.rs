// Made by `make package` of crates/fixed_elementary/src/logarithms.rt, which is proved: changes go there.

//! Logarithms to the base 2. They are computed by factors. Where these leave a digit open, they are computed by
//! squaring.

use crate::elementary::mantissas::{broad_squarings, narrow_squarings};
use crate::elementary::reductions::{
    BROAD_LACK, BroadLog, NARROW_LACK, NarrowLog, broad_log, broad_units, narrow_log, narrow_units,
};
use crate::word::{Outcome, RawWord, Valued, outcome_of_magnitude};

/// Returns the logarithm in units of `2^-places`, from a mantissa of 64 bits.
fn narrow_log2(a: u64, places: u32) -> u64 {
    let log = narrow_log(a);
    let least = narrow_units(log, places);
    let most = NarrowLog {
        digits: log.digits,
        part: log.part + NARROW_LACK,
    };
    if narrow_units(most, places) == least {
        least
    } else {
        narrow_squarings(a, places)
    }
}

/// Returns the logarithm in units of `2^-places`, from a mantissa of 128 bits.
fn broad_log2(a: u64, places: u32) -> u128 {
    let log = broad_log(a);
    let least = broad_units(log, places);
    let most = BroadLog {
        digits: log.digits,
        part: log.part + BROAD_LACK,
    };
    if broad_units(most, places) == least {
        least
    } else {
        broad_squarings(a, places)
    }
}

/// Returns the logarithm of `a` to the base 2, in units of `2^-places`, from a mantissa of 64 bits, or where `bits` is
/// above 32 from one of 128. The exact logarithm is at least the result, and less than 2 units above it. Preconditions:
/// `a` is above 0, and `places` is at most 57, or 121 where `bits` is above 32.
#[must_use]
pub fn enclosed_log2(bits: u32, a: u64, places: u32) -> u128 {
    if bits <= 32 {
        u128::from(narrow_units(narrow_log(a), places))
    } else {
        broad_units(broad_log(a), places)
    }
}

/// Returns the logarithm in units of `2^-places`, from a mantissa of 64 bits, or on words of 64 bits from one of 128.
fn units_of(bits: u32, a: u64, places: u32) -> u128 {
    if bits <= 32 {
        u128::from(narrow_log2(a, places))
    } else {
        broad_log2(a, places)
    }
}

/// Returns the number `places` in units of `2^-places`.
pub(crate) fn in_units(places: u32) -> u128 {
    u128::from(places) << places
}

/// Returns the outcome of `units - less`.
fn outcome_of_difference<T: RawWord>(units: u128, less: u128) -> Outcome<T> {
    if units < less {
        outcome_of_magnitude(true, less - units)
    } else {
        outcome_of_magnitude(false, units - less)
    }
}

/// Returns the logarithm of `a 2^-frac` to the base 2, in units of `2^-frac`. For the result r and the exact logarithm
/// l in units, `r <= l < r + 1 + 2^-k`, where `frac + k` is 62 on words of up to 32 bits and 126 on words of 64 bits.
/// The logarithm of a power of two is exact. Preconditions: `a` is above 0, and `frac` is at most the width.
///
/// # Examples
///
/// ```
/// use zugyelmas::elementary::log2_of;
/// use zugyelmas::word::{Outcome, Side};
///
/// // the logarithm of 4 is 2
/// assert_eq!(log2_of(64_i8, 4), Outcome { wrapped: 32, side: Side::Fits });
/// // -2.4150.., rounded down to -2.4375
/// assert_eq!(log2_of(3_i8, 4), Outcome { wrapped: -39, side: Side::Fits });
/// // -1 does not fit
/// assert_eq!(log2_of(8_u8, 4), Outcome { wrapped: 240, side: Side::Below });
/// ```
///
/// ```should_panic
/// # use zugyelmas::elementary::log2_of;
/// # use zugyelmas::word::{Outcome, Side};
/// # std::panic::set_hook(Box::new(|_| {}));
/// log2_of(0_i8, 4); // only numbers above 0 have one
/// ```
///
/// ```should_panic
/// # use zugyelmas::elementary::log2_of;
/// # use zugyelmas::word::{Outcome, Side};
/// # std::panic::set_hook(Box::new(|_| {}));
/// log2_of(64_i8, 9); // the fraction is above the width
/// ```
///
/// # Panics
///
/// Panics unless the fraction frac is at most the width, and the number is above 0.
///
/// # Proved
///
/// ```text
/// requires frac { frac ≤ T.BITS }
/// requires sign { pos 0 <ℤ T.value a }
/// ensures { (r : ℤ) × IsLog2Of (log2_room T.BITS) (T.value a) frac r
///     × StandsFor T.value T.SIGNED T.BITS r result }
/// ```
///
/// Definitions: [`log2_room`].
///
/// [`log2_room`]: crate::definitions::elementary_log2
#[track_caller]
#[must_use]
pub fn log2_of<T: RawWord>(a: T, frac: u32) -> Outcome<T> {
    assert!(
        frac <= T::BITS,
        "precondition: the fraction frac is at most the width"
    );
    assert!(
        !a.is_below_zero() && a.magnitude() > 0,
        "precondition: the number is above 0"
    );
    outcome_of_difference(units_of(T::BITS, a.magnitude(), frac), in_units(frac))
}
