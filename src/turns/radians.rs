// Made by `make package` of crates/fixed_turns/src/radians.rt, which is proved: changes go there.

//! Sines and cosines of angles in radians.

use crate::turns::angles::Angle;
use crate::turns::constants::{QUARTERS, QUARTERS_MORE, RADIANS, RADIANS_MORE};
use crate::turns::narrow::{is_narrow, narrow_cosine, narrow_sine};
use crate::turns::series::{either, high};
use crate::turns::signed::outcome_of_signed;
use crate::turns::sines::outcome_at;
use crate::word::{Outcome, RawWord};

/// Returns the product of words of 64 bits.
#[inline(always)]
pub(crate) fn product(a: u64, b: u64) -> u128 {
    u128::from(a) * u128::from(b)
}

/// Does what `quarters_in` does, for angles below `2^32` radians.
#[inline(always)]
fn few_quarters_in(x: u128) -> u64 {
    ((product((x >> 32) as u64, QUARTERS) + (1 << 95)) >> 96) as u64
}

/// Does what `quarters_in` does, for all angles.
#[inline(always)]
fn many_quarters_in(x: u128) -> u64 {
    let whole = (x >> 64) as u64;
    let part = (x % (1 << 64)) as u64;
    let finer = u128::from(high(whole, QUARTERS_MORE)) + u128::from(high(part, QUARTERS));
    ((product(whole, QUARTERS) + finer + (1 << 63)) >> 64) as u64
}

/// Returns how many quarter turns `x 2^-64` radians are, to the nearest or hardly further: what is left is at most
/// `0xc90fffff00000000` units of `2^-64` radians, where an eighth of a turn is some `0xc90fdaa22168c234`.
#[inline(always)]
fn quarters_in(x: u128) -> u64 {
    if x < 1 << 96 {
        few_quarters_in(x)
    } else {
        many_quarters_in(x)
    }
}

/// Returns how many units of `2^-64` radians quarter turns are, rounded down.
#[inline(always)]
fn radians_in(quarters: u64) -> u128 {
    2 * product(quarters, RADIANS) + (product(quarters, RADIANS_MORE) >> 63)
}

/// Splits `x 2^-64` radians into quarter turns and a rest in units of `2^-64` radians. The rest is at most 2 units too
/// small, and never too large. If it is 0, the exact rest may have either sign. x may be half a unit too large.
#[inline(always)]
pub(crate) fn split_units(x: u128) -> Angle {
    let quarter = quarters_in(x);
    let whole = radians_in(quarter);
    let ahead = (x.wrapping_sub(whole) % (1 << 64)) as u64;
    let below = x <= whole;
    Angle {
        quarter,
        below,
        rest: either(below, ahead.wrapping_neg(), ahead.saturating_sub(2)),
    }
}

/// Splits `magnitude 2^-frac` radians. The rest is exact if there are no quarter turns.
#[inline(always)]
fn split(magnitude: u64, frac: u32) -> Angle {
    let x = u128::from(magnitude) << (64 - frac);
    let angle = split_units(x);
    if angle.quarter == 0 {
        Angle {
            quarter: 0,
            below: false,
            rest: x as u64,
        }
    } else {
        angle
    }
}

/// Splits `a 2^-frac` radians, as `split` does. Whole turns are left out: at most 3 quarter turns remain.
#[inline(always)]
fn reduced<T: RawWord>(a: T, frac: u32) -> Angle {
    let angle = split(a.magnitude(), frac);
    if a.is_below_zero() {
        Angle {
            quarter: angle.quarter.wrapping_neg() % 4,
            below: !angle.below,
            rest: angle.rest,
        }
    } else {
        Angle {
            quarter: angle.quarter % 4,
            below: angle.below,
            rest: angle.rest,
        }
    }
}

/// Returns the sine of `a 2^-frac` radians, in units of `2^-frac`, rounded to the nearest. The result differs from the
/// exact sine by at most half a unit plus `2^-k`, where k is 41 on words of up to 32 bits and 61 on words of 64 bits.
/// The sine of 0 is exact, and none is above 1 or below -1. Precondition: `frac` is at most the width.
///
/// # Examples
///
/// ```
/// use zugyelmas::prelude::*;
/// use zugyelmas::turns::{atan2_of, cos_of, sin_cos_of, sin_of};
/// use zugyelmas::word::{Outcome, Side};
/// type Number = FixedI8<4>; // from -8 to 7.9375
/// type Small = FixedI8<7>; // from -1 to 127/128
/// let number = Number::from_num::<f64>;
/// let four = FixedU8::<4>::from_bits(64); // an angle whose sine is below 0
/// let (up, none) = (Small::MAX, Small::ZERO); // the angle of (none, up) is pi/2
///
/// // 0.1872..
/// assert_eq!(sin_of(12345_i32, 16), Outcome { wrapped: 12272, side: Side::Fits });
/// assert_eq!(sin_of(-12345_i32, 16), Outcome { wrapped: -12272, side: Side::Fits });
/// // -0.7568.. does not fit
/// assert_eq!(sin_of(64_u8, 4), Outcome { wrapped: 244, side: Side::Below });
/// ```
///
/// ```should_panic
/// # use zugyelmas::prelude::*;
/// # use zugyelmas::turns::{atan2_of, cos_of, sin_cos_of, sin_of};
/// # use zugyelmas::word::{Outcome, Side};
/// # type Number = FixedI8<4>; // from -8 to 7.9375
/// # type Small = FixedI8<7>; // from -1 to 127/128
/// # let number = Number::from_num::<f64>;
/// # let four = FixedU8::<4>::from_bits(64); // an angle whose sine is below 0
/// # let (up, none) = (Small::MAX, Small::ZERO); // the angle of (none, up) is pi/2
/// # std::panic::set_hook(Box::new(|_| {}));
/// sin_of(64_u8, 9); // the fraction is above the width
/// ```
///
/// # Panics
///
/// Panics unless the fraction frac is at most the width.
///
/// # Proved
///
/// ```text
/// requires { frac ≤ T.BITS }
/// ensures { (r : ℤ) × IsRadianSine (sine_room T.BITS) (T.value a) frac r
///     × StandsFor T.value T.SIGNED T.BITS r result }
/// ```
///
/// Definitions: [`sine_room`].
///
/// [`sine_room`]: crate::definitions::turns_sines
#[inline(always)]
#[track_caller]
#[must_use]
pub fn sin_of<T: RawWord>(a: T, frac: u32) -> Outcome<T> {
    assert!(
        frac <= T::BITS,
        "precondition: the fraction frac is at most the width"
    );
    if is_narrow(T::BITS, frac) {
        return outcome_of_signed(narrow_sine(a, frac));
    }
    let angle = reduced(a, frac);
    outcome_at(angle.quarter, angle.below, angle.rest, frac)
}

/// Returns the cosine of `a 2^-frac` radians, in units of `2^-frac`, rounded to the nearest. The result differs from
/// the exact cosine by at most half a unit plus `2^-k`, where k is 41 on words of up to 32 bits and 61 on words of 64
/// bits. The cosine of 0 is exact, and none is above 1 or below -1. Precondition: `frac` is at most the width.
///
/// # Examples
///
/// ```
/// use zugyelmas::prelude::*;
/// use zugyelmas::turns::{atan2_of, cos_of, sin_cos_of, sin_of};
/// use zugyelmas::word::{Outcome, Side};
/// type Number = FixedI8<4>; // from -8 to 7.9375
/// type Small = FixedI8<7>; // from -1 to 127/128
/// let number = Number::from_num::<f64>;
/// let four = FixedU8::<4>::from_bits(64); // an angle whose sine is below 0
/// let (up, none) = (Small::MAX, Small::ZERO); // the angle of (none, up) is pi/2
///
/// // 0.9823..
/// assert_eq!(cos_of(12345_i32, 16), Outcome { wrapped: 64377, side: Side::Fits });
/// // 1 does not fit
/// assert_eq!(cos_of(0_i8, 7), Outcome { wrapped: -128, side: Side::Above });
/// ```
///
/// ```should_panic
/// # use zugyelmas::prelude::*;
/// # use zugyelmas::turns::{atan2_of, cos_of, sin_cos_of, sin_of};
/// # use zugyelmas::word::{Outcome, Side};
/// # type Number = FixedI8<4>; // from -8 to 7.9375
/// # type Small = FixedI8<7>; // from -1 to 127/128
/// # let number = Number::from_num::<f64>;
/// # let four = FixedU8::<4>::from_bits(64); // an angle whose sine is below 0
/// # let (up, none) = (Small::MAX, Small::ZERO); // the angle of (none, up) is pi/2
/// # std::panic::set_hook(Box::new(|_| {}));
/// cos_of(64_u8, 9); // the fraction is above the width
/// ```
///
/// # Panics
///
/// Panics unless the fraction frac is at most the width.
///
/// # Proved
///
/// ```text
/// requires { frac ≤ T.BITS }
/// ensures { (r : ℤ) × IsRadianCosine (sine_room T.BITS) (T.value a) frac r
///     × StandsFor T.value T.SIGNED T.BITS r result }
/// ```
///
/// Definitions: [`sine_room`].
///
/// [`sine_room`]: crate::definitions::turns_sines
#[inline(always)]
#[track_caller]
#[must_use]
pub fn cos_of<T: RawWord>(a: T, frac: u32) -> Outcome<T> {
    assert!(
        frac <= T::BITS,
        "precondition: the fraction frac is at most the width"
    );
    if is_narrow(T::BITS, frac) {
        return outcome_of_signed(narrow_cosine(a, frac));
    }
    let angle = reduced(a, frac);
    outcome_at(angle.quarter + 1, angle.below, angle.rest, frac)
}

/// Returns the sine and the cosine of `a 2^-frac` radians, in units of `2^-frac`, both rounded to the nearest, as
/// `sin_of` and `cos_of` do. Precondition: `frac` is at most the width.
///
/// # Examples
///
/// ```
/// use zugyelmas::prelude::*;
/// use zugyelmas::turns::{atan2_of, cos_of, sin_cos_of, sin_of};
/// use zugyelmas::word::{Outcome, Side};
/// type Number = FixedI8<4>; // from -8 to 7.9375
/// type Small = FixedI8<7>; // from -1 to 127/128
/// let number = Number::from_num::<f64>;
/// let four = FixedU8::<4>::from_bits(64); // an angle whose sine is below 0
/// let (up, none) = (Small::MAX, Small::ZERO); // the angle of (none, up) is pi/2
///
/// let (sine, cosine) = sin_cos_of(12345_i32, 16);
/// assert_eq!(sine, Outcome { wrapped: 12272, side: Side::Fits }); // 0.1872..
/// assert_eq!(cosine, Outcome { wrapped: 64377, side: Side::Fits }); // 0.9823..
/// ```
///
/// ```should_panic
/// # use zugyelmas::prelude::*;
/// # use zugyelmas::turns::{atan2_of, cos_of, sin_cos_of, sin_of};
/// # use zugyelmas::word::{Outcome, Side};
/// # type Number = FixedI8<4>; // from -8 to 7.9375
/// # type Small = FixedI8<7>; // from -1 to 127/128
/// # let number = Number::from_num::<f64>;
/// # let four = FixedU8::<4>::from_bits(64); // an angle whose sine is below 0
/// # let (up, none) = (Small::MAX, Small::ZERO); // the angle of (none, up) is pi/2
/// # std::panic::set_hook(Box::new(|_| {}));
/// sin_cos_of(64_u8, 9); // the fraction is above the width
/// ```
///
/// # Panics
///
/// Panics unless the fraction frac is at most the width.
///
/// # Proved
///
/// ```text
/// requires { frac ≤ T.BITS }
/// ensures sine { (r : ℤ) × IsRadianSine (sine_room T.BITS) (T.value a) frac r
///     × StandsFor T.value T.SIGNED T.BITS r result.0 }
/// ensures cosine { (r : ℤ) × IsRadianCosine (sine_room T.BITS) (T.value a) frac r
///     × StandsFor T.value T.SIGNED T.BITS r result.1 }
/// ```
///
/// Definitions: [`sine_room`].
///
/// [`sine_room`]: crate::definitions::turns_sines
#[inline(always)]
#[track_caller]
#[must_use]
pub fn sin_cos_of<T: RawWord>(a: T, frac: u32) -> (Outcome<T>, Outcome<T>) {
    assert!(
        frac <= T::BITS,
        "precondition: the fraction frac is at most the width"
    );
    if is_narrow(T::BITS, frac) {
        return (
            outcome_of_signed(narrow_sine(a, frac)),
            outcome_of_signed(narrow_cosine(a, frac)),
        );
    }
    let angle = reduced(a, frac);
    let sine = outcome_at(angle.quarter, angle.below, angle.rest, frac);
    (
        sine,
        outcome_at(angle.quarter + 1, angle.below, angle.rest, frac),
    )
}
