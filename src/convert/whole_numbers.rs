// Made by `make package` of crates/fixed_convert/src/whole_numbers.rt, which is proved: changes go there.

//! Rounding of a number to whole numbers, in its own format.

use crate::convert::castable::Castable;
use crate::convert::fitting::fitted_by_ends;
use crate::convert::multiples::{ceil_at, floor_at, frac_at, round_at, round_ties_even_at};
use crate::word::Outcome;

/// Returns the largest whole number that is at most the number. Precondition: `frac` is at most the width.
///
/// # Examples
///
/// ```
/// use zugyelmas::convert::floor_of;
/// use zugyelmas::word::{Outcome, Side};
///
/// // from 1.75 to 1
/// assert_eq!(floor_of(28_i8, 4), Outcome { wrapped: 16, side: Side::Fits });
/// // from -1.75 to -2
/// assert_eq!(floor_of(-28_i8, 4), Outcome { wrapped: -32, side: Side::Fits });
/// // from -0.25 to -1
/// assert_eq!(floor_of(-64_i8, 8), Outcome { wrapped: 0, side: Side::Below });
/// ```
///
/// # Panics
///
/// Panics unless the fraction frac is at most the width.
///
/// # Proved
///
/// ```text
/// requires { frac ≤ T.BITS }
/// ensures { StandsFor T.value T.SIGNED T.BITS (exact_floor (T.value a) frac) result }
/// ```
///
/// Definitions: [`exact_floor`].
///
/// [`exact_floor`]: crate::definitions::convert_whole_number
#[inline]
#[track_caller]
#[must_use]
pub fn floor_of<T: Castable>(a: T, frac: u32) -> Outcome<T> {
    assert!(
        frac <= T::BITS,
        "precondition: the fraction frac is at most the width"
    );
    fitted_by_ends(floor_at(a.to_wide(), frac))
}

/// Returns the number minus its floor. Precondition: `frac` is at most the width.
///
/// # Examples
///
/// ```
/// use zugyelmas::convert::frac_of;
/// use zugyelmas::word::{Outcome, Side};
///
/// // of 1.75, which is 0.75
/// assert_eq!(frac_of(28_i8, 4), Outcome { wrapped: 12, side: Side::Fits });
/// // of -1.75, which is 0.25 above -2
/// assert_eq!(frac_of(-28_i8, 4), Outcome { wrapped: 4, side: Side::Fits });
/// ```
///
/// # Panics
///
/// Panics unless the fraction frac is at most the width.
///
/// # Proved
///
/// ```text
/// requires { frac ≤ T.BITS }
/// ensures { StandsFor T.value T.SIGNED T.BITS (exact_frac (T.value a) frac) result }
/// ```
///
/// Definitions: [`exact_frac`].
///
/// [`exact_frac`]: crate::definitions::convert_whole_number
#[inline]
#[track_caller]
#[must_use]
pub fn frac_of<T: Castable>(a: T, frac: u32) -> Outcome<T> {
    assert!(
        frac <= T::BITS,
        "precondition: the fraction frac is at most the width"
    );
    fitted_by_ends(frac_at(a.to_wide(), frac))
}

/// Returns the smallest whole number that is at least the number. Precondition: `frac` is at most the width.
///
/// # Examples
///
/// ```
/// use zugyelmas::convert::ceil_of;
/// use zugyelmas::word::{Outcome, Side};
///
/// // from 1.25 to 2
/// assert_eq!(ceil_of(20_i8, 4), Outcome { wrapped: 32, side: Side::Fits });
/// // from -1.25 to -1
/// assert_eq!(ceil_of(-20_i8, 4), Outcome { wrapped: -16, side: Side::Fits });
/// // from 7.25 to 8
/// assert_eq!(ceil_of(116_i8, 4), Outcome { wrapped: -128, side: Side::Above });
/// ```
///
/// # Panics
///
/// Panics unless the fraction frac is at most the width.
///
/// # Proved
///
/// ```text
/// requires { frac ≤ T.BITS }
/// ensures { StandsFor T.value T.SIGNED T.BITS (exact_ceil (T.value a) frac) result }
/// ```
///
/// Definitions: [`exact_ceil`].
///
/// [`exact_ceil`]: crate::definitions::convert_whole_number
#[inline]
#[track_caller]
#[must_use]
pub fn ceil_of<T: Castable>(a: T, frac: u32) -> Outcome<T> {
    assert!(
        frac <= T::BITS,
        "precondition: the fraction frac is at most the width"
    );
    fitted_by_ends(ceil_at(a.to_wide(), frac))
}

/// Returns the nearest whole number, ties away from 0. Precondition: `frac` is at most the width.
///
/// # Examples
///
/// ```
/// use zugyelmas::convert::round_of;
/// use zugyelmas::word::{Outcome, Side};
///
/// // from 2.5 to 3, away from 0
/// assert_eq!(round_of(40_i8, 4), Outcome { wrapped: 48, side: Side::Fits });
/// // from -2.5 to -3
/// assert_eq!(round_of(-40_i8, 4), Outcome { wrapped: -48, side: Side::Fits });
/// // from 7.5 to 8
/// assert_eq!(round_of(120_i8, 4), Outcome { wrapped: -128, side: Side::Above });
/// ```
///
/// # Panics
///
/// Panics unless the fraction frac is at most the width.
///
/// # Proved
///
/// ```text
/// requires { frac ≤ T.BITS }
/// ensures { StandsFor T.value T.SIGNED T.BITS (exact_round (T.value a) frac) result }
/// ```
///
/// Definitions: [`exact_round`].
///
/// [`exact_round`]: crate::definitions::convert_whole_number
#[inline]
#[track_caller]
#[must_use]
pub fn round_of<T: Castable>(a: T, frac: u32) -> Outcome<T> {
    assert!(
        frac <= T::BITS,
        "precondition: the fraction frac is at most the width"
    );
    fitted_by_ends(round_at(a.to_wide(), frac))
}

/// Returns the nearest whole number, ties to even. Precondition: `frac` is at most the width.
///
/// # Examples
///
/// ```
/// use zugyelmas::convert::round_ties_even_of;
/// use zugyelmas::word::{Outcome, Side};
///
/// // from 2.5 to 2
/// assert_eq!(round_ties_even_of(40_i8, 4), Outcome { wrapped: 32, side: Side::Fits });
/// // from 3.5 to 4
/// assert_eq!(round_ties_even_of(56_i8, 4), Outcome { wrapped: 64, side: Side::Fits });
/// // from 7.5 to 8
/// assert_eq!(round_ties_even_of(120_i8, 4), Outcome { wrapped: -128, side: Side::Above });
/// ```
///
/// # Panics
///
/// Panics unless the fraction frac is at most the width.
///
/// # Proved
///
/// ```text
/// requires { frac ≤ T.BITS }
/// ensures { StandsFor T.value T.SIGNED T.BITS (exact_round_ties_even (T.value a) frac) result }
/// ```
///
/// Definitions: [`exact_round_ties_even`].
///
/// [`exact_round_ties_even`]: crate::definitions::convert_whole_number
#[inline]
#[track_caller]
#[must_use]
pub fn round_ties_even_of<T: Castable>(a: T, frac: u32) -> Outcome<T> {
    assert!(
        frac <= T::BITS,
        "precondition: the fraction frac is at most the width"
    );
    fitted_by_ends(round_ties_even_at(a.to_wide(), frac))
}
