// Made by `make package` of crates/fixed_turns/src/sines.rt, which is proved: changes go there.

//! Sines and cosines of angles in turns.

use crate::turns::angles::{part_of_turn, parted};
use crate::turns::series::{cosine, radians_of, rounded, sine};
use crate::turns::signed::{Signed, outcome_of_signed};
use crate::word::{Outcome, RawWord};

/// Returns the sine of `x 2^-64` radians, in units of `2^-frac`, rounded to the nearest.
#[inline(always)]
fn sine_of(x: u64, bits: u32, frac: u32) -> u128 {
    rounded(u128::from(sine(x, bits)), 64 - frac)
}

/// Returns the cosine of `x 2^-64` radians, in units of `2^-frac`, rounded to the nearest.
#[inline(always)]
fn cosine_of(x: u64, bits: u32, frac: u32) -> u128 {
    rounded(cosine(x, bits), 64 - frac)
}

/// Returns whether a number is below 0 after quarter turns, where `below` is whether it is so before them. A half turn
/// changes the sign.
#[inline(always)]
pub(crate) fn turned(quarter: u64, below: bool) -> bool {
    (quarter / 2 == 1) != below
}

/// Returns the sine of quarter turns and `x 2^-64` radians, which are subtracted if `below`, in units of `2^-frac`. If x
/// is 0, it may stand for a small angle of either sign.
#[inline(always)]
fn sine_at(quarter: u64, below: bool, x: u64, bits: u32, frac: u32) -> Signed {
    if quarter % 2 == 0 {
        Signed {
            below_zero: turned(quarter, below),
            magnitude: sine_of(x, bits, frac),
        }
    } else {
        Signed {
            below_zero: turned(quarter, false),
            magnitude: cosine_of(x, bits, frac),
        }
    }
}

/// Returns the outcome of that sine.
#[inline(always)]
pub(crate) fn outcome_at<T: RawWord>(quarter: u64, below: bool, x: u64, frac: u32) -> Outcome<T> {
    outcome_of_signed(sine_at(quarter, below, x, T::BITS, frac))
}

/// Returns the sine of `a 2^-frac` turns, in units of `2^-frac`, rounded to the nearest. The result differs from the
/// exact sine by at most half a unit plus `2^-k`, where k is 41 on words of up to 32 bits and 61 on words of 64 bits.
/// Sines of whole quarter turns are exact, and none is above 1 or below -1. Precondition: `frac` is at most the width.
///
/// # Examples
///
/// ```
/// use zugyelmas::prelude::*;
/// use zugyelmas::turns::{atan2_turns_of, cos_turns_of, sin_cos_turns_of, sin_turns_of};
/// use zugyelmas::word::{Outcome, Side};
/// type Number = FixedI8<4>; // from -8 to 7.9375
/// type Small = FixedI8<7>;
/// let number = Number::from_num::<f64>;
/// let quarter = Small::from_bits(32);
/// let left = FixedI8::<8>::from_bits(-1); // on numbers from -1/2 to 127/256
/// let none = FixedI8::<8>::ZERO;
///
/// // 0.9259..
/// assert_eq!(sin_turns_of(12345_i32, 16), Outcome { wrapped: 60684, side: Side::Fits });
/// // 1 does not fit
/// assert_eq!(sin_turns_of(32_i8, 7), Outcome { wrapped: -128, side: Side::Above });
/// // -1 does not fit
/// assert_eq!(sin_turns_of(12_u8, 4), Outcome { wrapped: 240, side: Side::Below });
/// ```
///
/// ```should_panic
/// # use zugyelmas::prelude::*;
/// # use zugyelmas::turns::{atan2_turns_of, cos_turns_of, sin_cos_turns_of, sin_turns_of};
/// # use zugyelmas::word::{Outcome, Side};
/// # type Number = FixedI8<4>; // from -8 to 7.9375
/// # type Small = FixedI8<7>;
/// # let number = Number::from_num::<f64>;
/// # let quarter = Small::from_bits(32);
/// # let left = FixedI8::<8>::from_bits(-1); // on numbers from -1/2 to 127/256
/// # let none = FixedI8::<8>::ZERO;
/// # std::panic::set_hook(Box::new(|_| {}));
/// sin_turns_of(12_u8, 9); // the fraction is above the width
/// ```
///
/// # Panics
///
/// Panics unless the fraction frac is at most the width.
///
/// # Proved
///
/// ```text
/// requires { frac ≤ T.BITS }
/// ensures { (r : ℤ) × IsSine (sine_room T.BITS) (T.value a) frac r × StandsFor T.value T.SIGNED T.BITS r result }
/// ```
///
/// Definitions: [`sine_room`].
///
/// [`sine_room`]: crate::definitions::turns_sines
#[inline(always)]
#[track_caller]
#[must_use]
pub fn sin_turns_of<T: RawWord>(a: T, frac: u32) -> Outcome<T> {
    assert!(
        frac <= T::BITS,
        "precondition: the fraction frac is at most the width"
    );
    let angle = parted(part_of_turn(a, frac));
    outcome_at(angle.quarter, angle.below, radians_of(angle.rest), frac)
}

/// Returns the cosine of `a 2^-frac` turns, in units of `2^-frac`, rounded to the nearest. The result differs from the
/// exact cosine by at most half a unit plus `2^-k`, where k is 41 on words of up to 32 bits and 61 on words of 64 bits.
/// Cosines of whole quarter turns are exact, and none is above 1 or below -1. Precondition: `frac` is at most the
/// width.
///
/// # Examples
///
/// ```
/// use zugyelmas::prelude::*;
/// use zugyelmas::turns::{atan2_turns_of, cos_turns_of, sin_cos_turns_of, sin_turns_of};
/// use zugyelmas::word::{Outcome, Side};
/// type Number = FixedI8<4>; // from -8 to 7.9375
/// type Small = FixedI8<7>;
/// let number = Number::from_num::<f64>;
/// let quarter = Small::from_bits(32);
/// let left = FixedI8::<8>::from_bits(-1); // on numbers from -1/2 to 127/256
/// let none = FixedI8::<8>::ZERO;
///
/// // 0.3776..
/// assert_eq!(cos_turns_of(12345_i32, 16), Outcome { wrapped: 24748, side: Side::Fits });
/// assert_eq!(cos_turns_of(0_i8, 7).side, Side::Above); // 1 does not fit
/// ```
///
/// ```should_panic
/// # use zugyelmas::prelude::*;
/// # use zugyelmas::turns::{atan2_turns_of, cos_turns_of, sin_cos_turns_of, sin_turns_of};
/// # use zugyelmas::word::{Outcome, Side};
/// # type Number = FixedI8<4>; // from -8 to 7.9375
/// # type Small = FixedI8<7>;
/// # let number = Number::from_num::<f64>;
/// # let quarter = Small::from_bits(32);
/// # let left = FixedI8::<8>::from_bits(-1); // on numbers from -1/2 to 127/256
/// # let none = FixedI8::<8>::ZERO;
/// # std::panic::set_hook(Box::new(|_| {}));
/// cos_turns_of(12_u8, 9); // the fraction is above the width
/// ```
///
/// # Panics
///
/// Panics unless the fraction frac is at most the width.
///
/// # Proved
///
/// ```text
/// requires { frac ≤ T.BITS }
/// ensures { (r : ℤ) × IsCosine (sine_room T.BITS) (T.value a) frac r × StandsFor T.value T.SIGNED T.BITS r result }
/// ```
///
/// Definitions: [`sine_room`].
///
/// [`sine_room`]: crate::definitions::turns_sines
#[inline(always)]
#[track_caller]
#[must_use]
pub fn cos_turns_of<T: RawWord>(a: T, frac: u32) -> Outcome<T> {
    assert!(
        frac <= T::BITS,
        "precondition: the fraction frac is at most the width"
    );
    let angle = parted(part_of_turn(a, frac));
    outcome_at(angle.quarter + 1, angle.below, radians_of(angle.rest), frac)
}

/// Returns the sine and the cosine of `a 2^-frac` turns, in units of `2^-frac`, both rounded to the nearest. Each
/// result differs from its exact value by at most half a unit plus `2^-k`, where k is 41 on words of up to 32 bits and
/// 61 on words of 64 bits. The results at whole quarter turns are exact, and none is above 1 or below -1. Precondition:
/// `frac` is at most the width.
///
/// # Examples
///
/// ```
/// use zugyelmas::prelude::*;
/// use zugyelmas::turns::{atan2_turns_of, cos_turns_of, sin_cos_turns_of, sin_turns_of};
/// use zugyelmas::word::{Outcome, Side};
/// type Number = FixedI8<4>; // from -8 to 7.9375
/// type Small = FixedI8<7>;
/// let number = Number::from_num::<f64>;
/// let quarter = Small::from_bits(32);
/// let left = FixedI8::<8>::from_bits(-1); // on numbers from -1/2 to 127/256
/// let none = FixedI8::<8>::ZERO;
///
/// let (sine, cosine) = sin_cos_turns_of(12345_i32, 16);
/// assert_eq!(sine, Outcome { wrapped: 60684, side: Side::Fits }); // 0.9259..
/// assert_eq!(cosine, Outcome { wrapped: 24748, side: Side::Fits }); // 0.3776..
/// ```
///
/// ```should_panic
/// # use zugyelmas::prelude::*;
/// # use zugyelmas::turns::{atan2_turns_of, cos_turns_of, sin_cos_turns_of, sin_turns_of};
/// # use zugyelmas::word::{Outcome, Side};
/// # type Number = FixedI8<4>; // from -8 to 7.9375
/// # type Small = FixedI8<7>;
/// # let number = Number::from_num::<f64>;
/// # let quarter = Small::from_bits(32);
/// # let left = FixedI8::<8>::from_bits(-1); // on numbers from -1/2 to 127/256
/// # let none = FixedI8::<8>::ZERO;
/// # std::panic::set_hook(Box::new(|_| {}));
/// sin_cos_turns_of(12_u8, 9); // the fraction is above the width
/// ```
///
/// # Panics
///
/// Panics unless the fraction frac is at most the width.
///
/// # Proved
///
/// ```text
/// requires { frac ≤ T.BITS }
/// ensures sine { (r : ℤ) × IsSine (sine_room T.BITS) (T.value a) frac r
///     × StandsFor T.value T.SIGNED T.BITS r result.0 }
/// ensures cosine { (r : ℤ) × IsCosine (sine_room T.BITS) (T.value a) frac r
///     × StandsFor T.value T.SIGNED T.BITS r result.1 }
/// ```
///
/// Definitions: [`sine_room`].
///
/// [`sine_room`]: crate::definitions::turns_sines
#[inline(always)]
#[track_caller]
#[must_use]
pub fn sin_cos_turns_of<T: RawWord>(a: T, frac: u32) -> (Outcome<T>, Outcome<T>) {
    assert!(
        frac <= T::BITS,
        "precondition: the fraction frac is at most the width"
    );
    let angle = parted(part_of_turn(a, frac));
    let x = radians_of(angle.rest);
    let sine = outcome_at(angle.quarter, angle.below, x, frac);
    (sine, outcome_at(angle.quarter + 1, angle.below, x, frac))
}
