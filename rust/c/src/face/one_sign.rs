// Made by `make package` of crates/fixed_face/src/one_sign.rt, which is proved: changes go there.

//! Operations that only signed words have, or only unsigned ones. Operands and results are bits, in units of `2^-frac`.

use crate::block::Abs;
use crate::face::answer::Code;
use crate::face::blocks::each;
use crate::kernel::{abs_of, next_power_of_two_of, signum_of};
use crate::word::{Outcome, SignedWord, UnsignedWord, Word};

/// Returns the magnitude of `a`. Never fails.
#[inline]
pub fn abs<T: SignedWord>(a: T) -> Result<Outcome<T>, Code> {
    Ok(abs_of(a))
}

/// Writes the magnitude of x over each x of the block. Fails with `NoPolicy` if no policy has the number `policy`, and
/// with `OutOfRange` if the policy is `Checked` and a result does not fit.
#[inline]
pub fn abs_block<T: SignedWord>(block: &mut [T], policy: u32, place: &mut usize) -> i32 {
    each(&Abs, policy, block, place)
}

/// Returns `2^frac` if `a` is positive, 0 if it is 0, and `-2^frac` if it is negative. Fails with `FractionPastWidth`
/// if `frac` is greater than the width.
#[inline]
pub fn signum<T: SignedWord>(a: T, frac: u32) -> Result<Outcome<T>, Code> {
    if frac > T::BITS {
        return Err(Code::FractionPastWidth);
    }
    Ok(signum_of(a, frac))
}

/// Returns the smallest power of two that is at least `a`, both as bits. Never fails.
#[inline]
pub fn next_power_of_two<T: UnsignedWord>(a: T) -> Result<Outcome<T>, Code> {
    Ok(next_power_of_two_of(a))
}
