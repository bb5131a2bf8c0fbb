// Made by `make package` of crates/fixed_num/src/from_outcome.rt, which is proved: changes go there.

//! The number that each policy makes of an outcome. The Rust crate `fixed` does not have these calls.

use crate::num::format::Fixed;
use crate::word::{Outcome, Word, checked_of, overflowing_of, saturating_of, wrapping_of};

/// Returns the number that the outcome stands for. Precondition: it fits. Strict calls and operators call it.
/// (`fixed` does not have this call.)
///
/// # Examples
///
/// ```
/// use zugyelmas::prelude::*;
/// type Number = FixedI8<4>; // from -8 to 7.9375
///
/// use zugyelmas::num::exact_number;
/// use zugyelmas::word::{Outcome, Side};
/// let outcome = Outcome { wrapped: 24_i8, side: Side::Fits };
/// assert_eq!(exact_number(outcome), Number::from_num(1.5));
/// ```
///
/// # Panics
///
/// With debug assertions, panics unless the number fits. Without them, the result is wrapped.
///
/// # Proved
///
/// ```text
/// ensures { (x : ℤ) → StandsFor T.value T.SIGNED T.BITS x outcome → InRange T.SIGNED T.BITS x
///     → T.value result.bits ≡ x }
/// ```
///
/// Definitions: [`InRange`].
///
/// [`InRange`]: crate::definitions::word_format
#[track_caller]
#[must_use]
pub fn exact_number<T: Word, const F: u32>(outcome: Outcome<T>) -> Fixed<T, F> {
    debug_assert!(
        outcome.side == crate::word::Side::Fits,
        "precondition: the number fits"
    );
    Fixed {
        bits: outcome.wrapped,
    }
}

/// Returns the number that the outcome stands for, or `None` if it does not fit. (`fixed` does not have this call.)
///
/// # Examples
///
/// ```
/// use zugyelmas::prelude::*;
/// type Number = FixedI8<4>; // from -8 to 7.9375
///
/// use zugyelmas::num::checked_number;
/// use zugyelmas::kernel::{Rounding, mul_round_of};
/// let product = mul_round_of(24_i8, 24, 4, Rounding::Even);
/// assert_eq!(checked_number(product), Some(FixedI8::<4>::from_num(2.25))); // 1.5 * 1.5
/// ```
///
/// # Proved
///
/// ```text
/// ensures { (x : ℤ) → StandsFor T.value T.SIGNED T.BITS x outcome
///     → option_map (λ r. T.value r.bits) result ≡ checked T.SIGNED T.BITS (Some x) }
/// ```
///
/// Definitions: [`checked`].
///
/// [`checked`]: crate::definitions::word_policies
#[inline]
#[must_use]
pub fn checked_number<T: Word, const F: u32>(outcome: Outcome<T>) -> Option<Fixed<T, F>> {
    match checked_of(outcome) {
        Some(bits) => Some(Fixed { bits }),
        None => None,
    }
}

/// Returns the number nearest to the one that the outcome stands for. (`fixed` does not have this call.)
///
/// # Examples
///
/// ```
/// use zugyelmas::prelude::*;
/// type Number = FixedI8<4>; // from -8 to 7.9375
///
/// use zugyelmas::num::saturating_number;
/// let sum = zugyelmas::kernel::add_of(100_i8, 100);
/// assert_eq!(saturating_number(sum), FixedI8::<4>::MAX);
/// ```
///
/// # Proved
///
/// ```text
/// ensures { (x : ℤ) → StandsFor T.value T.SIGNED T.BITS x outcome
///     → Some (T.value result.bits) ≡ saturating T.SIGNED T.BITS (Some x) }
/// ```
///
/// Definitions: [`saturating`].
///
/// [`saturating`]: crate::definitions::word_policies
#[inline]
#[must_use]
pub fn saturating_number<T: Word, const F: u32>(outcome: Outcome<T>) -> Fixed<T, F> {
    Fixed {
        bits: saturating_of(outcome),
    }
}

/// Returns the number that the outcome stands for, wrapped to the word. (`fixed` does not have this call.)
///
/// # Examples
///
/// ```
/// use zugyelmas::prelude::*;
/// type Number = FixedI8<4>; // from -8 to 7.9375
///
/// use zugyelmas::num::wrapping_number;
/// let sum = zugyelmas::kernel::add_of(100_i8, 100);
/// assert_eq!(wrapping_number(sum), FixedI8::<4>::from_bits(-56));
/// ```
///
/// # Proved
///
/// ```text
/// ensures { (x : ℤ) → StandsFor T.value T.SIGNED T.BITS x outcome
///     → Some (T.value result.bits) ≡ wrapping T.SIGNED T.BITS (Some x) }
/// ```
///
/// Definitions: [`wrapping`].
///
/// [`wrapping`]: crate::definitions::word_policies
#[inline]
#[must_use]
pub fn wrapping_number<T: Word, const F: u32>(outcome: Outcome<T>) -> Fixed<T, F> {
    Fixed {
        bits: wrapping_of(outcome),
    }
}

/// Returns the wrapped number, and whether the exact one does not fit. (`fixed` does not have this call.)
///
/// # Examples
///
/// ```
/// use zugyelmas::prelude::*;
/// type Number = FixedI8<4>; // from -8 to 7.9375
///
/// use zugyelmas::num::overflowing_number;
/// let sum = zugyelmas::kernel::add_of(100_i8, 100);
/// assert_eq!(overflowing_number(sum), (FixedI8::<4>::from_bits(-56), true));
/// ```
///
/// # Proved
///
/// ```text
/// ensures { (x : ℤ) → StandsFor T.value T.SIGNED T.BITS x outcome
///     → Some (T.value result.0.bits, result.1) ≡ overflowing T.SIGNED T.BITS (Some x) }
/// ```
///
/// Definitions: [`overflowing`].
///
/// [`overflowing`]: crate::definitions::word_policies
#[inline]
#[must_use]
pub fn overflowing_number<T: Word, const F: u32>(outcome: Outcome<T>) -> (Fixed<T, F>, bool) {
    let (bits, overflows) = overflowing_of(outcome);
    (Fixed { bits }, overflows)
}
