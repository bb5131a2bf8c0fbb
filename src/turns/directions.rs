// Made by `make package` of crates/fixed_turns/src/directions.rt, which is proved: changes go there.

//! Angles of points, in radians.

use crate::turns::angles::Angle;
use crate::turns::constants::PI;
use crate::turns::guesses::{probe, radians_near};
use crate::turns::radians::{product, split_units};
use crate::turns::series::{cosine, sine};
use crate::word::{Outcome, RawWord, outcome_of_magnitude};

/// A point that is `y` above the origin, and `x` to its right or, if `left`, to its left.
#[derive(Clone, Copy)]
struct Point {
    left: bool,
    x: u64,
    y: u64,
}

/// Returns whether `a s <= b c`, where the sine s is to be negated if `below`, and b if `under`.
#[inline(always)]
fn is_at_most(a: u64, below: bool, sine: u64, under: bool, b: u64, cosine: u128) -> bool {
    let across = product(a, sine);
    let along = u128::from(b) * cosine;
    if below && under {
        along <= across
    } else if below {
        true
    } else if under {
        across == 0 && along == 0
    } else {
        across <= along
    }
}

/// Returns whether the point `(a, b)`, or `(a, -b)` if `under`, lies to the left of the rest of an angle, up to
/// `(a + b) 2^-k`, where k is 41 on words of up to 32 bits and 61 on words of 64 bits.
#[inline(always)]
fn is_left_of_rest(a: u64, under: bool, b: u64, angle: Angle, bits: u32) -> bool {
    is_at_most(
        a,
        angle.below,
        sine(angle.rest, bits),
        under,
        b,
        cosine(angle.rest, bits),
    )
}

/// Returns whether the point lies to the right of the origin.
#[inline(always)]
fn is_to_the_right(point: Point) -> bool {
    !point.left && point.x > 0
}

/// Returns whether the point lies to the left of a direction in units of `2^-64` radians, up to the same part. The
/// direction may be half a unit too large. Precondition: it is hardly more than half a turn.
#[inline(always)]
fn is_left(point: Point, direction: u128, bits: u32) -> bool {
    let angle = split_units(direction);
    if angle.quarter == 0 {
        point.left || is_left_of_rest(point.x, false, point.y, angle, bits)
    } else if angle.quarter == 1 {
        is_left_of_rest(point.y, !point.left, point.x, angle, bits)
    } else if is_to_the_right(point) {
        false
    } else {
        is_left_of_rest(point.x, true, point.y, angle, bits)
    }
}

/// Returns the direction of `units + 1/2` units of `2^-frac` radians, in units of `2^-64` radians, rounded up.
#[inline(always)]
fn direction(units: u128, frac: u32) -> u128 {
    if frac == 64 {
        units + 1
    } else {
        (2 * units + 1) << (63 - frac)
    }
}

/// Returns a number of units of `2^-frac` radians that is past half a turn, by at most a unit.
#[inline(always)]
fn past_pi(frac: u32) -> u128 {
    (PI >> (126 - frac)) + 1
}

/// Returns the angle of the point in units of `2^-frac` radians, rounded to the nearest up to the same part.
#[inline(always)]
fn nearest(point: Point, guess: u128, bits: u32, frac: u32) -> u128 {
    let mut low = 0;
    let mut high = past_pi(frac);
    let mut stride = 1_u128;
    while low < high {
        let units = probe(low, high, guess, stride);
        if is_left(point, direction(units, frac), bits) {
            low = units + 1;
        } else {
            high = units;
        }
        stride = stride.saturating_mul(2);
    }
    low
}

/// Returns the angle of the point in units of `2^-frac` radians. It is 0 on the axis to the right of the origin.
/// Precondition: the point is not the origin.
#[inline(always)]
fn upper_angle(point: Point, bits: u32, frac: u32) -> u128 {
    if point.y == 0 && !point.left {
        return 0;
    }
    let guess = radians_near(point.left, point.x, point.y, bits, frac);
    nearest(point, guess, bits, frac)
}

/// Returns the angle of the point `(x, y)` in units of `2^-frac` radians, from -pi to pi, rounded to the nearest. The
/// result differs from the exact angle by at most half a unit plus `2^-k` radians, where k is 40 on words of up to 32
/// bits and 60 on words of 64 bits. The angle 0 is exact. If y is 0 and x is below 0, the exact angle is pi.
/// Preconditions: the coordinates are not both 0, and `frac` is at most the width.
///
/// # Examples
///
/// ```
/// use zugyelmas::prelude::*;
/// use zugyelmas::turns::{atan2_of, cos_of, sin_cos_of, sin_of};
/// use zugyelmas::word::{Outcome, Side};
/// type Number = FixedI8<4>; // from -8 to 7.9375
/// type Small = FixedI8<7>; // from -1 to 127/128
/// let number = Number::from_num::<f64>;
/// let four = FixedU8::<4>::from_bits(64); // an angle whose sine is below 0
/// let (up, none) = (Small::MAX, Small::ZERO); // the angle of (none, up) is pi/2
///
/// // 0.7853..
/// assert_eq!(atan2_of(1_i32, 1, 16), Outcome { wrapped: 51472, side: Side::Fits });
/// // -2.0344..
/// assert_eq!(atan2_of(-2_i32, -1, 16), Outcome { wrapped: -133329, side: Side::Fits });
/// // pi does not fit
/// assert_eq!(atan2_of(0_i8, -1, 6), Outcome { wrapped: -55, side: Side::Above });
/// ```
///
/// ```should_panic
/// # use zugyelmas::prelude::*;
/// # use zugyelmas::turns::{atan2_of, cos_of, sin_cos_of, sin_of};
/// # use zugyelmas::word::{Outcome, Side};
/// # type Number = FixedI8<4>; // from -8 to 7.9375
/// # type Small = FixedI8<7>; // from -1 to 127/128
/// # let number = Number::from_num::<f64>;
/// # let four = FixedU8::<4>::from_bits(64); // an angle whose sine is below 0
/// # let (up, none) = (Small::MAX, Small::ZERO); // the angle of (none, up) is pi/2
/// # std::panic::set_hook(Box::new(|_| {}));
/// atan2_of(0_i8, 0, 6); // the coordinates are both 0
/// ```
///
/// # Panics
///
/// Panics unless the fraction frac is at most the width, and the coordinates are not both 0.
///
/// # Proved
///
/// ```text
/// requires fraction { frac ≤ T.BITS }
/// requires some { T.value x ≡ pos 0 → T.value y ≢ pos 0 }
/// ensures { (r : ℤ) × IsRadianAngle (sine_room T.BITS) (T.value x) (T.value y) frac r
///     × StandsFor T.value T.SIGNED T.BITS r result }
/// ```
///
/// Definitions: [`sine_room`].
///
/// [`sine_room`]: crate::definitions::turns_sines
#[inline(always)]
#[track_caller]
#[must_use]
pub fn atan2_of<T: RawWord>(y: T, x: T, frac: u32) -> Outcome<T> {
    assert!(
        frac <= T::BITS,
        "precondition: the fraction frac is at most the width"
    );
    assert!(
        x.magnitude() > 0 || y.magnitude() > 0,
        "precondition: the coordinates are not both 0"
    );
    let point = Point {
        left: x.is_below_zero(),
        x: x.magnitude(),
        y: y.magnitude(),
    };
    outcome_of_magnitude(y.is_below_zero(), upper_angle(point, T::BITS, frac))
}
