// Made by `make package` of crates/fixed_float/src/outgoing.rt, which is proved: changes go there.

//! Conversions of words to floats.

use crate::convert::Castable;
use crate::float::binary::Binary;

/// Returns the float nearest to `a / 2^frac`, ties to even. Precondition: `frac` is at most the width.
///
/// # Examples
///
/// ```
/// use zugyelmas::float::to_float_of;
/// use zugyelmas::word::{Outcome, Rounding, Side};
///
/// assert_eq!(to_float_of::<i8, f64>(24, 4), 1.5);
/// // a tie, to the even float
/// assert_eq!(to_float_of::<i32, f32>(16_777_217, 0), 16_777_216.0);
/// ```
///
/// ```should_panic
/// # use zugyelmas::float::to_float_of;
/// # use zugyelmas::word::{Outcome, Rounding, Side};
/// # std::panic::set_hook(Box::new(|_| {}));
/// to_float_of::<i8, f64>(24, 9); // the fraction is above the width
/// ```
///
/// # Panics
///
/// Panics unless the fraction frac is at most the width.
///
/// # Proved
///
/// ```text
/// requires { frac ≤ T.BITS }
/// ensures { X.float result ≡ nearest_float X.format (T.value a) frac }
/// ```
///
/// Definitions: [`nearest_float`].
///
/// [`nearest_float`]: crate::definitions::float_rows
#[inline]
#[track_caller]
#[must_use]
pub fn to_float_of<T: Castable, X: Binary>(a: T, frac: u32) -> X {
    assert!(
        frac <= T::BITS,
        "precondition: the fraction frac is at most the width"
    );
    X::nearest(a, frac)
}
