// Made by `make package` of crates/fixed_convert/src/convert.rt, which is proved: changes go there.

//! Numbers of one format in another.

use crate::convert::castable::Castable;
use crate::convert::moved::{lowered, lowered_clamped, lowered_round, raised};
use crate::word::{Outcome, Rounding, nearest_of};

/// Returns `a / 2^from` in units of `2^-to`, rounded down.
///
/// # Examples
///
/// ```
/// use zugyelmas::convert::convert_of;
/// use zugyelmas::word::{Outcome, Rounding, Side};
///
/// // From 8 fraction bits to 4.
/// // 1.5
/// assert_eq!(convert_of(384_i16, 8, 4), Outcome { wrapped: 24_i8, side: Side::Fits });
/// // -24.06.., rounded down
/// assert_eq!(convert_of(-385_i16, 8, 4), Outcome { wrapped: -25_i8, side: Side::Fits });
/// // 9
/// assert_eq!(convert_of(2304_i16, 8, 4), Outcome { wrapped: -112_i8, side: Side::Above });
/// ```
///
/// # Proved
///
/// ```text
/// ensures { StandsFor T.value T.SIGNED T.BITS (exact_convert (S.value a) from to) result }
/// ```
///
/// Definitions: [`exact_convert`].
///
/// [`exact_convert`]: crate::definitions::convert_convert
#[inline]
#[must_use]
pub fn convert_of<S: Castable, T: Castable>(a: S, from: u32, to: u32) -> Outcome<T> {
    if from <= to {
        raised(a, to - from)
    } else {
        lowered(a, from - to)
    }
}

/// Returns `a / 2^from` in units of `2^-to`, rounded as named.
///
/// # Examples
///
/// ```
/// use zugyelmas::convert::convert_round_of;
/// use zugyelmas::word::{Outcome, Rounding, Side};
///
/// // From 8 fraction bits to 4: 408 becomes 25.5 units.
/// assert_eq!(convert_round_of(408_i16, 8, 4, Rounding::Down), Outcome { wrapped: 25_i8, side: Side::Fits });
/// assert_eq!(convert_round_of(408_i16, 8, 4, Rounding::Even), Outcome { wrapped: 26_i8, side: Side::Fits });
/// // 9
/// assert_eq!(convert_round_of(2304_i16, 8, 4, Rounding::Even), Outcome { wrapped: -112_i8, side: Side::Above });
/// ```
///
/// # Proved
///
/// ```text
/// ensures { StandsFor T.value T.SIGNED T.BITS
///     (rounded_convert (S.value a) from to rounding) result }
/// ```
///
/// Definitions: [`rounded_convert`].
///
/// [`rounded_convert`]: crate::definitions::convert_convert
#[inline]
#[must_use]
pub fn convert_round_of<S: Castable, T: Castable>(
    a: S,
    from: u32,
    to: u32,
    rounding: Rounding,
) -> Outcome<T> {
    if from <= to {
        raised(a, to - from)
    } else {
        lowered_round(a, from - to, rounding)
    }
}

/// Returns the word nearest to `a / 2^from` in units of `2^-to`, rounded as named.
///
/// # Examples
///
/// ```
/// use zugyelmas::convert::saturating_convert_of;
/// use zugyelmas::word::Rounding;
///
/// // From 8 fraction bits to 4: 408 becomes 25.5 units.
/// assert_eq!(saturating_convert_of::<i16, i8>(408, 8, 4, Rounding::Even), 26);
/// // 9 does not fit
/// assert_eq!(saturating_convert_of::<i16, i8>(2304, 8, 4, Rounding::Even), i8::MAX);
/// assert_eq!(saturating_convert_of::<i16, u8>(-408, 8, 4, Rounding::Even), 0);
/// ```
///
/// # Proved
///
/// ```text
/// ensures { T.value result
///     ≡ clamp T.SIGNED T.BITS (rounded_convert (S.value a) from to rounding) }
/// ```
///
/// Definitions: [`clamp`], [`rounded_convert`].
///
/// [`clamp`]: crate::definitions::word_format
/// [`rounded_convert`]: crate::definitions::convert_convert
#[inline]
#[track_caller]
#[must_use]
pub fn saturating_convert_of<S: Castable, T: Castable>(
    a: S,
    from: u32,
    to: u32,
    rounding: Rounding,
) -> T {
    if from <= to {
        nearest_of(raised(a, to - from))
    } else {
        lowered_clamped(a, from - to, rounding)
    }
}
