// Made by `make package` of crates/fixed_poly/src/evaluation.rt, which is proved: changes go there.

//! Horner's rule on bits.

use crate::kernel::mul_add_of;
use crate::poly::reply::PolyReply;
use crate::word::{RawWord, Word, checked_of};

/// Returns the value at `x` of the polynomial with these coefficients, the lowest first. Coefficients, `x` and the
/// value are in units of `2^-frac`. Each step multiplies by `x`, rounds the product down, and adds the next lower
/// coefficient. If the value of a step does not fit, the reply is `Overflow` with the first such step. `x` may be any
/// number; if it is from 0 to 1, [`laws::bound_law`](crate::poly::laws::bound_law) bounds the rounding. Preconditions: there
/// is a coefficient, and `frac` is at most the width.
///
/// # Examples
///
/// ```
/// use zugyelmas::{PolyReply, horner_of};
///
/// // 1 + x/2 + x^2/4 at 1/2, with 8 fraction bits, is 1.3125.
/// assert_eq!(horner_of(&[256_i16, 128, 64], 128, 8), PolyReply::Value(336));
/// // 7 + x at 2 does not fit 8 bits with 4 fraction bits.
/// assert_eq!(horner_of(&[112_i8, 16], 32, 4), PolyReply::Overflow(0));
/// ```
///
/// ```should_panic
/// # use zugyelmas::{PolyReply, horner_of};
/// # std::panic::set_hook(Box::new(|_| {}));
/// horner_of::<i8>(&[], 32, 4); // no coefficient
/// ```
///
/// # Panics
///
/// Panics unless there is a coefficient, and the fraction frac is at most the width.
///
/// # Proved
///
/// ```text
/// requires some { 0 < length coefs.now }
/// requires frac { frac ≤ T.BITS }
/// ensures { reply_map T.value result
///     ≡ horner_reply T.SIGNED T.BITS frac (T.value x) (map T.value coefs.now) }
/// ```
///
/// Definitions: [`horner_reply`], [`reply_map`].
///
/// [`horner_reply`]: crate::definitions::poly_horner
/// [`reply_map`]: crate::definitions::poly_horner
#[track_caller]
#[must_use]
pub fn horner_of<T: Word>(coefs: &[T], x: T, frac: u32) -> PolyReply<T> {
    assert!(!coefs.is_empty(), "precondition: there is a coefficient");
    assert!(
        frac <= T::BITS,
        "precondition: the fraction frac is at most the width"
    );
    let mut value = T::ZERO;
    for i in (0..coefs.len()).rev() {
        match checked_mul_add(value, x, coefs[i], frac) {
            Some(next) => value = next,
            None => return PolyReply::Overflow(i),
        }
    }
    PolyReply::Value(value)
}

/// Returns the product of `value` and `mul`, rounded down, plus `add`, or `None` if that does not fit. Precondition:
/// `frac` is at most the width.
fn checked_mul_add<T: Word>(value: T, mul: T, add: T, frac: u32) -> Option<T> {
    checked_of(mul_add_of(value, mul, add, frac))
}
