// Made by `make package` of crates/fixed_table/src/line.rt, which is proved: changes go there.

//! Points on the line between two values.

use crate::word::{Arithmetic, Integer, RawWord, Valued, Word};

/// Returns the value on the line from `start` to `end`, `part` of `2^step` units past the start, rounded down. It
/// always fits. Preconditions: `step` is below the width, and `part` is below `2^step`.
///
/// # Examples
///
/// ```
/// use zugyelmas::table::interpolate_of;
///
/// assert_eq!(interpolate_of(100_u8, 200, 3, 2), 175); // three quarters of the way
/// assert_eq!(interpolate_of(-1_i16, 0, 1, 1), -1); // -0.5, rounded down
/// ```
///
/// ```should_panic
/// # use zugyelmas::table::interpolate_of;
/// # std::panic::set_hook(Box::new(|_| {}));
/// interpolate_of(1_i8, 2, 4, 2); // at the end
/// ```
///
/// # Panics
///
/// Panics unless the step is below the width, and the part is below the step.
///
/// # Proved
///
/// ```text
/// requires step { step < T.BITS }
/// requires part { part < 2 ^ step }
/// ensures { T.value result ≡ floor_quotient (on_line (T.value start) (T.value end) step part) (2 ^ step) }
/// ```
///
/// Definitions: [`floor_quotient`], [`on_line`].
///
/// [`floor_quotient`]: crate::definitions::word_quotient
/// [`on_line`]: crate::definitions::table_interpolation
#[track_caller]
#[must_use]
pub fn interpolate_of<T: Word>(start: T, end: T, part: u64, step: u32) -> T {
    assert!(step < T::BITS, "precondition: the step is below the width");
    assert!(
        part >> step == 0,
        "precondition: the part is below the step"
    );
    if part == 0 {
        return start;
    }
    let rest = power_of_two(step) - part;
    let sum = weighted(start, rest).plus(weighted(end, part));
    T::cut(sum.floored(step))
}

/// Returns a value times a weight that the word holds.
#[inline]
fn weighted<T: Arithmetic>(value: T, weight: u64) -> T::Whole {
    let factor = T::residue(false, weight as u128);
    value.whole().times(factor.whole())
}

/// Returns `2^step`.
#[inline]
fn power_of_two(step: u32) -> u64 {
    1 << step
}
