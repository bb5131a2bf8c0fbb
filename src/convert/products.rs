// Made by `make package` of crates/fixed_convert/src/products.rt, which is proved: changes go there.

//! Products of words of any two formats, in a third format.

use crate::convert::castable::Castable;
use crate::convert::convert::convert_round_of;
use crate::convert::long_products::long_product_of;
use crate::word::{Integer, Outcome, RawWord, Rounding, Valued};

/// Returns the outcome of `a / 2^a_frac` times `b / 2^b_frac` in units of `2^-to`, rounded once. Precondition: the
/// fractions of both factors are at most their widths.
///
/// # Examples
///
/// ```
/// use zugyelmas::convert::mul_into_of;
/// use zugyelmas::word::{Outcome, Rounding, Side};
///
/// // 1.5 times 2.25
/// let product = mul_into_of::<i16, i32, i32>(384, 8, 147456, 16, 16, Rounding::Down);
/// assert_eq!(product, Outcome { wrapped: 221184, side: Side::Fits }); // 3.375
/// let low = mul_into_of(-1_i16, 8, 1_i32, 16, 16, Rounding::Down); // -1/256 of a unit
/// assert_eq!(low, Outcome { wrapped: -1_i32, side: Side::Fits }); // rounded down
/// // nearly 256
/// let past = mul_into_of::<u64, u64, i8>(u64::MAX, 64, u64::MAX, 56, 4, Rounding::Even);
/// assert_eq!(past, Outcome { wrapped: 0, side: Side::Above }); // 4096 units
/// ```
///
/// ```should_panic
/// # use zugyelmas::convert::mul_into_of;
/// # use zugyelmas::word::{Outcome, Rounding, Side};
/// # std::panic::set_hook(Box::new(|_| {}));
/// // the fraction of `a` is above the width
/// mul_into_of::<i8, i8, i8>(1, 9, 1, 0, 0, Rounding::Down);
/// ```
///
/// # Panics
///
/// Panics unless the fraction a_frac is at most the width, and the fraction b_frac is at most the width.
///
/// # Proved
///
/// ```text
/// requires a_frac { a_frac ≤ A.BITS }
/// requires b_frac { b_frac ≤ B.BITS }
/// ensures { StandsFor T.value T.SIGNED T.BITS
///     (rounded_mul_into (A.value a) a_frac (B.value b) b_frac to rounding) result }
/// ```
///
/// Definitions: [`rounded_mul_into`].
///
/// [`rounded_mul_into`]: crate::definitions::convert_convert
#[inline]
#[track_caller]
#[must_use]
pub fn mul_into_of<A: Castable, B: Castable, T: Castable>(
    a: A,
    a_frac: u32,
    b: B,
    b_frac: u32,
    to: u32,
    rounding: Rounding,
) -> Outcome<T> {
    assert!(
        a_frac <= A::BITS,
        "precondition: the fraction a_frac is at most the width"
    );
    assert!(
        b_frac <= B::BITS,
        "precondition: the fraction b_frac is at most the width"
    );
    let from = a_frac + b_frac;
    if digits::<A>() + digits::<B>() < 63 {
        convert_round_of(short_product(a, b), from, to, rounding)
    } else {
        long_product_of(a, b, from, to, rounding)
    }
}

/// Returns the largest number of bits of the magnitudes of a word, without the smallest number of a signed word.
#[inline]
fn digits<T: Castable>() -> u32 {
    if T::SIGNED { T::BITS - 1 } else { T::BITS }
}

/// Returns the product of two short words, which loops compute for several pairs at once.
#[inline]
fn short_product<A: Castable, B: Castable>(a: A, b: B) -> i64 {
    i64::from_wide(a.to_wide()).times(i64::from_wide(b.to_wide()))
}
