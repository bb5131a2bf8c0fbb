// Made by `make package` of crates/fixed_face/src/conversions.rt, which is proved: changes go there.

//! Conversions from other formats, and from and to doubles.

use crate::convert::{Castable, convert_round_of};
use crate::face::answer::Code;
use crate::face::rounded::rounding_of;
use crate::float::{from_float_round_of, to_float_of};
use crate::word::{Outcome, RawWord};

/// Returns `number / 2^from` in units of `2^-to`, rounded as named. Fails with `FractionPastWidth` if `from` is greater
/// than the width of S, or `to` than that of T, and with `NoRounding` if no rounding has the number `rounding`.
#[inline]
pub fn convert<S: Castable, T: Castable>(
    number: S,
    from: u32,
    to: u32,
    rounding: u32,
) -> Result<Outcome<T>, Code> {
    if from > S::BITS || to > T::BITS {
        return Err(Code::FractionPastWidth);
    }
    let Some(rounding) = rounding_of(rounding) else {
        return Err(Code::NoRounding);
    };
    Ok(convert_round_of(number, from, to, rounding))
}

/// Returns the number of a double in units of `2^-frac`, rounded as named. Fails with `FractionPastWidth` if `frac` is
/// greater than the width, with `NoRounding` if no rounding has the number `rounding`, and with `NotFinite` if the
/// double is a NaN or an infinity.
#[inline]
pub fn from_double<T: RawWord>(number: f64, frac: u32, rounding: u32) -> Result<Outcome<T>, Code> {
    if frac > T::BITS {
        return Err(Code::FractionPastWidth);
    }
    let Some(rounding) = rounding_of(rounding) else {
        return Err(Code::NoRounding);
    };
    match from_float_round_of(number, frac, rounding) {
        Some(outcome) => Ok(outcome),
        None => Err(Code::NotFinite),
    }
}

/// Writes the double nearest to `a / 2^frac`, ties to even, and returns 0. Fails with `FractionPastWidth` if `frac` is
/// greater than the width.
#[inline]
pub fn to_double<T: Castable>(a: T, frac: u32, value: &mut f64) -> i32 {
    if frac > T::BITS {
        return Code::FractionPastWidth.number();
    }
    *value = to_float_of(a, frac);
    0
}
