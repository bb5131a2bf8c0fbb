// Made by `make package` of crates/fixed_turns/src/points.rt, which is proved: changes go there.

//! Angles of points, in turns.

use crate::turns::octants::{power, rest_of};
use crate::word::{Outcome, RawWord, outcome_of_magnitude};

/// Returns the angle of a point, from 0 to 1/2, in units of `2^-frac` turns. The point is `y` above the origin, and `x`
/// to its right or, if `below`, to its left. Preconditions: the coordinates are not both 0, and `frac` is from 2 to 64.
#[inline(always)]
fn by_quarters(below: bool, x: u64, y: u64, bits: u32, frac: u32) -> u64 {
    let quarter = power(frac - 2);
    if y <= x {
        let rest = rest_of(x, y, bits, frac);
        if below { 2 * quarter - rest } else { rest }
    } else {
        let rest = rest_of(y, x, bits, frac);
        if below {
            quarter + rest
        } else {
            quarter - rest
        }
    }
}

/// Returns the same angle for any `frac` of at most 64. If `frac` is 0 or 1, a unit is larger than a quarter turn.
#[inline(always)]
fn upper_angle(below: bool, x: u64, y: u64, bits: u32, frac: u32) -> u64 {
    if frac == 0 {
        0
    } else if frac == 1 {
        u64::from(below)
    } else {
        by_quarters(below, x, y, bits, frac)
    }
}

/// Returns the angle of the point `(x, y)` in units of `2^-frac` turns, from -1/2 to 1/2 turns, rounded to the nearest.
/// The result differs from the exact angle by at most half a unit plus `2^-k` radians, where k is 40 on words of up to
/// 32 bits and 60 on words of 64 bits. Multiples of 1/8 are exact if they are whole numbers of units. If y is 0 and x
/// is below 0, the exact angle is 1/2. Preconditions: the coordinates are not both 0, and `frac` is at most the width.
///
/// # Examples
///
/// ```
/// use zugyelmas::prelude::*;
/// use zugyelmas::turns::{atan2_turns_of, cos_turns_of, sin_cos_turns_of, sin_turns_of};
/// use zugyelmas::word::{Outcome, Side};
/// type Number = FixedI8<4>; // from -8 to 7.9375
/// type Small = FixedI8<7>;
/// let number = Number::from_num::<f64>;
/// let quarter = Small::from_bits(32);
/// let left = FixedI8::<8>::from_bits(-1); // on numbers from -1/2 to 127/256
/// let none = FixedI8::<8>::ZERO;
///
/// // an eighth of a turn
/// assert_eq!(atan2_turns_of(1_i32, 1, 16), Outcome { wrapped: 8192, side: Side::Fits });
/// // -0.3237..
/// assert_eq!(atan2_turns_of(-2_i32, -1, 16), Outcome { wrapped: -21220, side: Side::Fits });
/// // 1/2 does not fit
/// assert_eq!(atan2_turns_of(0_i8, -1, 8), Outcome { wrapped: -128, side: Side::Above });
/// ```
///
/// ```should_panic
/// # use zugyelmas::prelude::*;
/// # use zugyelmas::turns::{atan2_turns_of, cos_turns_of, sin_cos_turns_of, sin_turns_of};
/// # use zugyelmas::word::{Outcome, Side};
/// # type Number = FixedI8<4>; // from -8 to 7.9375
/// # type Small = FixedI8<7>;
/// # let number = Number::from_num::<f64>;
/// # let quarter = Small::from_bits(32);
/// # let left = FixedI8::<8>::from_bits(-1); // on numbers from -1/2 to 127/256
/// # let none = FixedI8::<8>::ZERO;
/// # std::panic::set_hook(Box::new(|_| {}));
/// atan2_turns_of(0_i8, 0, 8); // the coordinates are both 0
/// ```
///
/// # Panics
///
/// Panics unless the fraction frac is at most the width, and the coordinates are not both 0.
///
/// # Proved
///
/// ```text
/// requires fraction { frac ≤ T.BITS }
/// requires some { T.value x ≡ pos 0 → T.value y ≢ pos 0 }
/// ensures { (r : ℤ) × IsAngleOf (turn_room T.BITS) (T.value x) (T.value y) frac r
///     × StandsFor T.value T.SIGNED T.BITS r result }
/// ```
///
/// Definitions: [`turn_room`].
///
/// [`turn_room`]: crate::definitions::turns_angles
#[inline(always)]
#[track_caller]
#[must_use]
pub fn atan2_turns_of<T: RawWord>(y: T, x: T, frac: u32) -> Outcome<T> {
    assert!(
        frac <= T::BITS,
        "precondition: the fraction frac is at most the width"
    );
    assert!(
        x.magnitude() > 0 || y.magnitude() > 0,
        "precondition: the coordinates are not both 0"
    );
    let magnitude = upper_angle(
        x.is_below_zero(),
        x.magnitude(),
        y.magnitude(),
        T::BITS,
        frac,
    );
    outcome_of_magnitude(y.is_below_zero(), u128::from(magnitude))
}
