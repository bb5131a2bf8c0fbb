// Made by `make package` of crates/fixed_word/src/policies.rt, which is proved: changes go there.

//! What each policy makes of the number that an outcome stands for.

use crate::word::arithmetic::Arithmetic;
use crate::word::integer::Integer;
use crate::word::outcome::{Outcome, Side};
use crate::word::word::{RawWord, Word};

/// Returns the number, or `None` if it does not fit.
///
/// # Examples
///
/// ```
/// use zugyelmas::word::{Outcome, Side, checked_of};
/// let five = Outcome { wrapped: 5_i8, side: Side::Fits };
/// let large = Outcome { wrapped: -56_i8, side: Side::Above }; // 200
///
/// assert_eq!(checked_of(five), Some(5));
/// assert_eq!(checked_of(large), None);
/// ```
///
/// # Proved
///
/// ```text
/// ensures { (x : ℤ) → StandsFor T.value T.SIGNED T.BITS x outcome
///     → option_map T.value result ≡ checked T.SIGNED T.BITS (Some x) }
/// ```
///
/// Definitions: [`checked`].
///
/// [`checked`]: crate::definitions::word_policies
#[must_use]
pub fn checked_of<T: Word>(outcome: Outcome<T>) -> Option<T> {
    match outcome.side {
        Side::Fits => Some(outcome.wrapped),
        Side::Above | Side::Below => None,
    }
}

/// Returns the wrapped number, and whether the exact number does not fit.
///
/// # Examples
///
/// ```
/// use zugyelmas::word::{Outcome, Side, overflowing_of};
/// let five = Outcome { wrapped: 5_i8, side: Side::Fits };
/// let large = Outcome { wrapped: -56_i8, side: Side::Above }; // 200
///
/// assert_eq!(overflowing_of(five), (5, false));
/// assert_eq!(overflowing_of(large), (-56, true)); // 200 - 256
/// ```
///
/// # Proved
///
/// ```text
/// ensures { (x : ℤ) → StandsFor T.value T.SIGNED T.BITS x outcome
///     → Some (T.value result.0, result.1) ≡ overflowing T.SIGNED T.BITS (Some x) }
/// ```
///
/// Definitions: [`overflowing`].
///
/// [`overflowing`]: crate::definitions::word_policies
#[must_use]
pub fn overflowing_of<T: Word>(outcome: Outcome<T>) -> (T, bool) {
    (outcome.wrapped, outcome.side != Side::Fits)
}

/// Returns the wrapped number: it fits, and differs from the exact number by a multiple of `2^n`, where n is the
/// width.
///
/// # Examples
///
/// ```
/// use zugyelmas::word::{Outcome, Side, wrapping_of};
/// let five = Outcome { wrapped: 5_i8, side: Side::Fits };
/// let large = Outcome { wrapped: -56_i8, side: Side::Above }; // 200
///
/// assert_eq!(wrapping_of(five), 5);
/// assert_eq!(wrapping_of(large), -56); // 200 - 256
/// ```
///
/// # Proved
///
/// ```text
/// ensures { (x : ℤ) → StandsFor T.value T.SIGNED T.BITS x outcome
///     → Some (T.value result) ≡ wrapping T.SIGNED T.BITS (Some x) }
/// ```
///
/// Definitions: [`wrapping`].
///
/// [`wrapping`]: crate::definitions::word_policies
#[must_use]
pub fn wrapping_of<T: Word>(outcome: Outcome<T>) -> T {
    overflowing_of(outcome).0
}

/// Returns the nearest number that fits.
///
/// # Examples
///
/// ```
/// use zugyelmas::word::{Outcome, Side, saturating_of};
/// let five = Outcome { wrapped: 5_i8, side: Side::Fits };
/// let large = Outcome { wrapped: -56_i8, side: Side::Above }; // 200
///
/// assert_eq!(saturating_of(five), 5);
/// assert_eq!(saturating_of(large), 127);
/// ```
///
/// # Proved
///
/// ```text
/// ensures { (x : ℤ) → StandsFor T.value T.SIGNED T.BITS x outcome
///     → Some (T.value result) ≡ saturating T.SIGNED T.BITS (Some x) }
/// ```
///
/// Definitions: [`saturating`].
///
/// [`saturating`]: crate::definitions::word_policies
#[must_use]
pub fn saturating_of<T: Word>(outcome: Outcome<T>) -> T {
    nearest_of(outcome)
}

/// Returns the word nearest to the number of an outcome: `saturating_of` for every word whose range is known. The end
/// of the range is chosen before the test whether the number fits, so that loops select it without a branch.
///
/// # Examples
///
/// ```
/// use zugyelmas::word::{Outcome, Side, nearest_of};
/// let five = Outcome { wrapped: 5_i8, side: Side::Fits };
/// let large = Outcome { wrapped: -56_i8, side: Side::Above }; // 200
///
/// assert_eq!(nearest_of(five), 5);
/// assert_eq!(nearest_of(large), 127);
/// ```
///
/// # Proved
///
/// ```text
/// ensures { (x : ℤ) → StandsFor T.value T.SIGNED T.BITS x outcome
///     → T.value result ≡ clamp T.SIGNED T.BITS x }
/// ```
///
/// Definitions: [`clamp`].
///
/// [`clamp`]: crate::definitions::word_format
#[inline]
#[must_use]
pub fn nearest_of<T: RawWord>(outcome: Outcome<T>) -> T {
    let end: T = end_on(outcome.side);
    match outcome.side {
        Side::Fits => outcome.wrapped,
        _ => end,
    }
}

/// Returns the end of the range on the side of a number that does not fit.
#[inline]
fn end_on<T: RawWord>(side: Side) -> T {
    match side {
        Side::Below => T::MIN,
        _ => T::MAX,
    }
}

/// Returns the word nearest to an integer.
///
/// # Examples
///
/// ```
/// use zugyelmas::word::{Outcome, Side, nearest_of_whole};
/// let five = Outcome { wrapped: 5_i8, side: Side::Fits };
/// let large = Outcome { wrapped: -56_i8, side: Side::Above }; // 200
///
/// assert_eq!(nearest_of_whole::<i8>(127_i16), 127);
/// assert_eq!(nearest_of_whole::<i8>(-200_i16), -128);
/// ```
///
/// # Proved
///
/// ```text
/// ensures { T.value result ≡ clamp T.SIGNED T.BITS (T.Whole.value whole) }
/// ```
///
/// Definitions: [`clamp`].
///
/// [`clamp`]: crate::definitions::word_format
#[inline]
#[must_use]
pub fn nearest_of_whole<T: Word>(whole: T::Whole) -> T {
    T::cut(between(T::MIN.whole(), T::MAX.whole(), whole))
}

/// Returns the number from `least` to `greatest` that is nearest to an integer.
#[inline]
fn between<I: Integer>(least: I, greatest: I, number: I) -> I {
    if number.is_below(least) {
        least
    } else if greatest.is_below(number) {
        greatest
    } else {
        number
    }
}

/// Returns the nearest number that fits, by a choice at each end, which loops of products do in one instruction.
///
/// # Examples
///
/// ```
/// use zugyelmas::word::{Outcome, Side, clamped_of};
/// let five = Outcome { wrapped: 5_i8, side: Side::Fits };
/// let large = Outcome { wrapped: -56_i8, side: Side::Above }; // 200
///
/// assert_eq!(clamped_of(five), 5);
/// assert_eq!(clamped_of(large), 127);
/// ```
///
/// # Proved
///
/// ```text
/// ensures { (x : ℤ) → StandsFor T.value T.SIGNED T.BITS x outcome
///     → Some (T.value result) ≡ saturating T.SIGNED T.BITS (Some x) }
/// ```
///
/// Definitions: [`saturating`].
///
/// [`saturating`]: crate::definitions::word_policies
#[inline]
#[must_use]
pub fn clamped_of<T: Word>(outcome: Outcome<T>) -> T {
    outcome
        .wrapped
        .unless(outcome.side == Side::Above, T::MAX)
        .unless(outcome.side == Side::Below, T::MIN)
}

/// Returns the number. Precondition: it fits.
///
/// # Examples
///
/// ```
/// use zugyelmas::word::{Outcome, Side, strict_of};
/// let five = Outcome { wrapped: 5_i8, side: Side::Fits };
/// let large = Outcome { wrapped: -56_i8, side: Side::Above }; // 200
///
/// assert_eq!(strict_of(five), 5);
/// ```
///
/// ```should_panic
/// # use zugyelmas::word::{Outcome, Side, strict_of};
/// # let five = Outcome { wrapped: 5_i8, side: Side::Fits };
/// # let large = Outcome { wrapped: -56_i8, side: Side::Above }; // 200
/// # std::panic::set_hook(Box::new(|_| {}));
/// strict_of(large); // 200 does not fit
/// ```
///
/// # Panics
///
/// Panics unless the number fits.
///
/// # Proved
///
/// ```text
/// requires { outcome.side ≡ Side.Fits }
/// ensures { (x : ℤ) → StandsFor T.value T.SIGNED T.BITS x outcome
///     → T.value result ≡ x }
/// ```
#[track_caller]
#[must_use]
pub fn strict_of<T: Word>(outcome: Outcome<T>) -> T {
    assert!(outcome.side == Side::Fits, "precondition: the number fits");
    outcome.wrapped
}
