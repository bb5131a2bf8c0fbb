// Made by `make package` of crates/fixed_poly/src/typed.rt, which is proved: changes go there.

//! Horner's rule on typed numbers.

use crate::num::{Constants, Fixed};
use crate::policy::CheckedMulAdd;
use crate::poly::reply::PolyReply;
use crate::word::{RawWord, Word};

/// Returns the value at `x` of the polynomial with these coefficients, the lowest first. This is the value of
/// [`horner_of`](crate::poly::horner_of) on the bits. If the value of a step does not fit, the reply is `Overflow` with the
/// first such step. Preconditions: there is a coefficient, and F is at most the width.
///
/// # Examples
///
/// ```
/// use zugyelmas::prelude::*;
/// use zugyelmas::{PolyReply, horner};
/// let number = FixedI8::<4>::from_num::<f64>; // from -8 to 7.9375
///
/// // 1 + x/2 + x^2/4 at 2 is 3.
/// let coefficients = [number(1.0), number(0.5), number(0.25)];
/// assert_eq!(horner(&coefficients, number(2.0)), PolyReply::Value(number(3.0)));
/// // 7 + x at 2 does not fit.
/// assert_eq!(horner(&[number(7.0), number(1.0)], number(2.0)), PolyReply::Overflow(0));
/// ```
///
/// ```should_panic
/// # use zugyelmas::prelude::*;
/// # use zugyelmas::{PolyReply, horner};
/// # let number = FixedI8::<4>::from_num::<f64>; // from -8 to 7.9375
/// # std::panic::set_hook(Box::new(|_| {}));
/// horner(&[], number(2.0)); // no coefficient
/// ```
///
/// # Compile errors
///
/// Compiles only if the fraction F is at most the width.
///
/// # Panics
///
/// Panics unless there is a coefficient.
///
/// # Proved
///
/// ```text
/// requires some { 0 < length coefs.now }
/// requires fraction { F ≤ T.BITS }
/// ensures { reply_map (λ v. T.value v.bits) result
///     ≡ horner_reply T.SIGNED T.BITS F (T.value x.bits) (map (λ c. T.value c.bits) coefs.now) }
/// ```
///
/// Definitions: [`horner_reply`], [`reply_map`].
///
/// [`horner_reply`]: crate::definitions::poly_horner
/// [`reply_map`]: crate::definitions::poly_horner
#[track_caller]
#[must_use]
pub fn horner<T: Word, const F: u32>(
    coefs: &[Fixed<T, F>],
    x: Fixed<T, F>,
) -> PolyReply<Fixed<T, F>> {
    assert!(!coefs.is_empty(), "precondition: there is a coefficient");
    const {
        assert!(
            F <= T::BITS,
            "precondition: the fraction F is at most the width"
        )
    };
    let mut value = Fixed::<T, F>::ZERO;
    for i in (0..coefs.len()).rev() {
        match value.checked_mul_add(x, coefs[i]) {
            Some(next) => value = next,
            None => return PolyReply::Overflow(i),
        }
    }
    PolyReply::Value(value)
}
