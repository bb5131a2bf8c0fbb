// Made by `make package` of crates/fixed_elementary/src/lengths.rt, which is proved: changes go there.

//! The length of a pair.

use crate::elementary::roots::{root_of_whole, root_past};
use crate::word::{Outcome, RawWord, outcome_of_magnitude};

/// Returns the square of a magnitude.
fn square(magnitude: u64) -> u128 {
    u128::from(magnitude) * u128::from(magnitude)
}

/// Returns the root of the sum of the squares, rounded down. The sum may have 129 bits.
fn length_of(a: u64, b: u64) -> u128 {
    let (sum, past) = square(a).overflowing_add(square(b));
    if past {
        root_past(sum)
    } else {
        root_of_whole(sum)
    }
}

/// Returns the length of the pair `(a, b)`, which is the root of `a^2 + b^2`, rounded down. The operands and the result
/// have the same number of fraction bits, which may be any.
///
/// # Examples
///
/// ```
/// use zugyelmas::elementary::hypot_of;
/// use zugyelmas::word::{Outcome, Side};
///
/// // 3 and -4 have the length 5
/// assert_eq!(hypot_of(48_i8, -64), Outcome { wrapped: 80, side: Side::Fits });
/// // 2.7041.., rounded down to 2.6875
/// assert_eq!(hypot_of(24_i8, 36), Outcome { wrapped: 43, side: Side::Fits });
/// // 8, whatever the fraction
/// assert_eq!(hypot_of(i8::MIN, 0), Outcome { wrapped: -128, side: Side::Above });
/// assert_eq!(hypot_of(u64::MAX, u64::MAX).side, Side::Above);
/// ```
///
/// # Proved
///
/// ```text
/// ensures { StandsFor T.value T.SIGNED T.BITS (exact_hypot (T.value a) (T.value b)) result }
/// ```
///
/// Definitions: [`exact_hypot`].
///
/// [`exact_hypot`]: crate::definitions::elementary_elementary_rows
#[must_use]
pub fn hypot_of<T: RawWord>(a: T, b: T) -> Outcome<T> {
    outcome_of_magnitude(false, length_of(a.magnitude(), b.magnitude()))
}
