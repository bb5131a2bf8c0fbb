// Made by `make package` of crates/fixed_face/src/roots.rt, which is proved: changes go there.

//! Square roots. Operands and results are bits, in units of `2^-frac`.

use crate::face::answer::Code;
use crate::kernel::sqrt_of;
use crate::word::{Outcome, RawWord, Word};

/// Returns the root of `a 2^frac`, rounded down. Fails with `FractionPastWidth` if `frac` is greater than the width,
/// and with `NegativeRoot` if `a` is negative.
#[inline]
pub(crate) fn sqrt<T: Word>(a: T, frac: u32) -> Result<Outcome<T>, Code> {
    if frac > T::BITS {
        return Err(Code::FractionPastWidth);
    }
    if a.is_below_zero() {
        return Err(Code::NegativeRoot);
    }
    Ok(sqrt_of(a, frac))
}
