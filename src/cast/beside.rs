// Made by `make package` of crates/fixed_cast/src/beside.rt, which is proved: changes go there.

//! What each policy makes of a whole number beside a number, and of what the number is above its floor. Each has the
//! format of the number.

use crate::cast::policies::{
    checked_num, exact_num, overflowing_num, saturating_num, strict_num, wrapping_num,
};
use crate::convert::{Castable, ceil_of, floor_of, frac_of, round_of, round_ties_even_of};
use crate::num::Fixed;
use crate::word::Outcome;

/// Which of the whole numbers beside a number is taken.
pub(crate) enum Beside {
    /// The largest one that is at most the number.
    Floor,
    /// The smallest one that is at least the number.
    Ceil,
    /// The nearest one, ties away from 0.
    Round,
    /// The nearest one, ties to even.
    RoundTiesEven,
}

/// Returns the outcome of the whole number. Precondition: `frac` is at most the width.
#[inline(always)]
fn whole_of<T: Castable>(a: T, frac: u32, beside: Beside) -> Outcome<T> {
    match beside {
        Beside::Floor => floor_of(a, frac),
        Beside::Ceil => ceil_of(a, frac),
        Beside::Round => round_of(a, frac),
        Beside::RoundTiesEven => round_ties_even_of(a, frac),
    }
}

/// Returns the whole number. Preconditions: the fraction is at most the width, and the whole number fits.
#[inline(always)]
#[track_caller]
pub(crate) fn exact_whole<T: Castable, const F: u32>(
    a: Fixed<T, F>,
    beside: Beside,
) -> Fixed<T, F> {
    exact_num(whole_of(a.bits, F, beside))
}

/// Returns the whole number, or `None` if it does not fit. Precondition: the fraction is at most the width.
#[inline(always)]
pub(crate) fn checked_whole<T: Castable, const F: u32>(
    a: Fixed<T, F>,
    beside: Beside,
) -> Option<Fixed<T, F>> {
    checked_num(whole_of(a.bits, F, beside))
}

/// Returns the whole number, wrapped, and whether it does not fit. Precondition: the fraction is at most the width.
#[inline(always)]
pub(crate) fn overflowing_whole<T: Castable, const F: u32>(
    a: Fixed<T, F>,
    beside: Beside,
) -> (Fixed<T, F>, bool) {
    overflowing_num(whole_of(a.bits, F, beside))
}

/// Returns the whole number, wrapped. Precondition: the fraction is at most the width.
#[inline(always)]
pub(crate) fn wrapping_whole<T: Castable, const F: u32>(
    a: Fixed<T, F>,
    beside: Beside,
) -> Fixed<T, F> {
    wrapping_num(whole_of(a.bits, F, beside))
}

/// Returns the whole number, saturated. Precondition: the fraction is at most the width.
#[inline(always)]
pub(crate) fn saturating_whole<T: Castable, const F: u32>(
    a: Fixed<T, F>,
    beside: Beside,
) -> Fixed<T, F> {
    saturating_num(whole_of(a.bits, F, beside))
}

/// Returns the whole number. Preconditions: the fraction is at most the width, and the whole number fits.
#[inline(always)]
#[track_caller]
pub(crate) fn strict_whole<T: Castable, const F: u32>(
    a: Fixed<T, F>,
    beside: Beside,
) -> Fixed<T, F> {
    strict_num(whole_of(a.bits, F, beside))
}

/// Returns the number minus its floor, wrapped. Precondition: the fraction is at most the width.
#[inline(always)]
pub(crate) fn wrapping_frac<T: Castable, const F: u32>(a: Fixed<T, F>) -> Fixed<T, F> {
    wrapping_num(frac_of(a.bits, F))
}
