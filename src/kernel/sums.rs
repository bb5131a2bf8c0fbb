// Made by `make package` of crates/fixed_kernel/src/sums.rt, which is proved: changes go there.

//! Sums, differences, magnitudes and signs.

use crate::kernel::whole::{fitting, scaled};
use crate::word::{Arithmetic, Outcome, RawWord, Side, Word};

/// Returns `-a`.
///
/// # Examples
///
/// ```
/// use zugyelmas::kernel::neg_of;
/// use zugyelmas::word::{Outcome, Side};
///
/// assert_eq!(neg_of(24_i8), Outcome { wrapped: -24, side: Side::Fits });
/// assert_eq!(neg_of(i8::MIN), Outcome { wrapped: i8::MIN, side: Side::Above }); // 128
/// assert_eq!(neg_of(1_u8), Outcome { wrapped: 255, side: Side::Below }); // -1
/// ```
///
/// # Proved
///
/// ```text
/// ensures { StandsFor T.value T.SIGNED T.BITS (neg_ℤ (T.value a)) result }
/// ```
#[inline]
#[must_use]
pub fn neg_of<T: Word>(a: T) -> Outcome<T> {
    // That it is in range bounds its negative.
    let _sign = a.is_below_zero();
    let side = negative_side(a);
    Outcome {
        wrapped: T::ZERO.difference(a).wrapped,
        side,
    }
}

/// Returns the side of `-a`. It is out of range if `a` is the smallest number of a signed word, or any but 0 of an
/// unsigned word.
#[inline]
fn negative_side<T: Word>(a: T) -> Side {
    if a == T::ZERO {
        Side::Fits
    } else if T::SIGNED {
        above_if(a == T::MIN)
    } else {
        Side::Below
    }
}

/// Returns `a + b`.
///
/// # Examples
///
/// ```
/// use zugyelmas::kernel::add_of;
/// use zugyelmas::word::{Outcome, Side};
///
/// assert_eq!(add_of(24_i8, 36), Outcome { wrapped: 60, side: Side::Fits });
/// // 128
/// assert_eq!(add_of(i8::MAX, 1), Outcome { wrapped: i8::MIN, side: Side::Above });
/// ```
///
/// # Proved
///
/// ```text
/// ensures { StandsFor T.value T.SIGNED T.BITS (T.value a +ℤ T.value b) result }
/// ```
#[must_use]
pub fn add_of<T: Word>(a: T, b: T) -> Outcome<T> {
    a.sum(b)
}

/// Returns `a - b`.
///
/// # Examples
///
/// ```
/// use zugyelmas::kernel::sub_of;
/// use zugyelmas::word::{Outcome, Side};
///
/// assert_eq!(sub_of(24_i8, 36), Outcome { wrapped: -12, side: Side::Fits });
/// // -129
/// assert_eq!(sub_of(i8::MIN, 1), Outcome { wrapped: i8::MAX, side: Side::Below });
/// ```
///
/// # Proved
///
/// ```text
/// ensures { StandsFor T.value T.SIGNED T.BITS (T.value a -ℤ T.value b) result }
/// ```
#[must_use]
pub fn sub_of<T: Word>(a: T, b: T) -> Outcome<T> {
    a.difference(b)
}

/// Returns the magnitude of `a - b`, wrapped.
#[inline]
fn gap<T: Word>(a: T, b: T) -> T {
    let (down, up) = (a.difference(b), b.difference(a));
    if a < b { up.wrapped } else { down.wrapped }
}

/// Returns the magnitude of `a - b`.
///
/// # Examples
///
/// ```
/// use zugyelmas::kernel::dist_of;
/// use zugyelmas::word::{Outcome, Side};
///
/// assert_eq!(dist_of(24_i8, -32), Outcome { wrapped: 56, side: Side::Fits });
/// // 255
/// assert_eq!(dist_of(i8::MAX, i8::MIN), Outcome { wrapped: -1, side: Side::Above });
/// ```
///
/// # Proved
///
/// ```text
/// ensures { StandsFor T.value T.SIGNED T.BITS (exact_abs (T.value a -ℤ T.value b)) result }
/// ```
///
/// Definitions: [`exact_abs`].
///
/// [`exact_abs`]: crate::definitions::kernel_rows
#[inline]
#[must_use]
pub fn dist_of<T: Word>(a: T, b: T) -> Outcome<T> {
    // That both are in range bounds their distance.
    let _signs = (a.is_below_zero(), b.is_below_zero());
    from_zero(gap(a, b))
}

/// Returns the magnitude of `a`, wrapped.
#[inline]
fn size<T: Word>(a: T) -> T {
    let negated = T::ZERO.difference(a);
    if a.is_below_zero() {
        negated.wrapped
    } else {
        a
    }
}

/// Returns the magnitude of `a`. Precondition: the word is signed.
///
/// # Examples
///
/// ```
/// use zugyelmas::kernel::abs_of;
/// use zugyelmas::word::{Outcome, Side};
///
/// assert_eq!(abs_of(-24_i8), Outcome { wrapped: 24, side: Side::Fits });
/// assert_eq!(abs_of(i8::MIN), Outcome { wrapped: i8::MIN, side: Side::Above }); // 128
/// ```
///
/// # Panics
///
/// Panics unless the word is signed.
///
/// # Proved
///
/// ```text
/// requires { T.SIGNED ≡ true }
/// ensures { StandsFor T.value T.SIGNED T.BITS (exact_abs (T.value a)) result }
/// ```
///
/// Definitions: [`exact_abs`].
///
/// [`exact_abs`]: crate::definitions::kernel_rows
#[inline]
#[track_caller]
#[must_use]
pub fn abs_of<T: Word>(a: T) -> Outcome<T> {
    assert!(T::SIGNED, "precondition: the word is signed");
    // That it is in range bounds its magnitude.
    let _sign = a.is_below_zero();
    from_zero(size(a))
}

/// Returns the side of a number that is not negative, by whether it is negative when wrapped.
#[inline]
fn above_if(below_zero: bool) -> Side {
    if below_zero { Side::Above } else { Side::Fits }
}

/// Returns the outcome of a number from 0 to `2^n - 1`, by its wrapped word.
#[inline]
fn from_zero<T: Word>(wrapped: T) -> Outcome<T> {
    let side = above_if(wrapped.is_below_zero());
    Outcome { wrapped, side }
}

/// Returns the sign of `a` as a number: `2^frac`, 0 or `-2^frac`. Preconditions: `frac` is at most the width, and the
/// word is signed.
///
/// # Examples
///
/// ```
/// use zugyelmas::kernel::signum_of;
/// use zugyelmas::word::{Outcome, Side};
///
/// assert_eq!(signum_of(-40_i8, 4), Outcome { wrapped: -16, side: Side::Fits }); // -1
/// assert_eq!(signum_of(0_i8, 4), Outcome { wrapped: 0, side: Side::Fits });
/// // 1 with 7 fraction bits
/// assert_eq!(signum_of(64_i8, 7), Outcome { wrapped: -128, side: Side::Above });
/// ```
///
/// ```should_panic
/// # use zugyelmas::kernel::signum_of;
/// # use zugyelmas::word::{Outcome, Side};
/// # std::panic::set_hook(Box::new(|_| {}));
/// signum_of(-40_i8, 9); // the fraction is above the width
/// ```
///
/// # Panics
///
/// Panics unless the fraction frac is at most the width, and the word is signed.
///
/// # Proved
///
/// ```text
/// requires frac { frac ≤ T.BITS }
/// requires signed { T.SIGNED ≡ true }
/// ensures { StandsFor T.value T.SIGNED T.BITS (exact_signum (T.value a) frac) result }
/// ```
///
/// Definitions: [`exact_signum`].
///
/// [`exact_signum`]: crate::definitions::kernel_rows
#[track_caller]
#[must_use]
pub fn signum_of<T: Word>(a: T, frac: u32) -> Outcome<T> {
    assert!(
        frac <= T::BITS,
        "precondition: the fraction frac is at most the width"
    );
    assert!(T::SIGNED, "precondition: the word is signed");
    scaled(sign_of(a), frac)
}

/// Returns 1, 0 or -1 by the sign of `a`.
fn sign_of<T: Word>(a: T) -> Outcome<T> {
    if a.is_below_zero() {
        T::ZERO.difference(T::ONE)
    } else if a == T::ZERO {
        fitting(T::ZERO)
    } else {
        fitting(T::ONE)
    }
}

/// Returns `a + b`. One word may be signed and the other unsigned. Precondition: both have the same width.
///
/// # Examples
///
/// ```
/// use zugyelmas::kernel::mixed_add_of;
/// use zugyelmas::word::{Outcome, Side};
///
/// assert_eq!(mixed_add_of(-24_i8, 144_u8), Outcome { wrapped: 120, side: Side::Fits });
/// // 168
/// assert_eq!(mixed_add_of(24_i8, 144_u8), Outcome { wrapped: -88, side: Side::Above });
/// ```
///
/// # Panics
///
/// Panics unless both words have the same width.
///
/// # Proved
///
/// ```text
/// requires { U.BITS ≡ T.BITS }
/// ensures { StandsFor T.value T.SIGNED T.BITS (T.value a +ℤ U.value b) result }
/// ```
#[inline]
#[track_caller]
#[must_use]
pub fn mixed_add_of<T: Word, U: RawWord>(a: T, b: U) -> Outcome<T> {
    assert!(
        U::BITS == T::BITS,
        "precondition: both words have the same width"
    );
    // That it is in range bounds the sum.
    let _sign = a.is_below_zero();
    let below = b.is_below_zero();
    let kept = residue_of::<T, U>(b);
    let moved = kept.is_below_zero() != below;
    turned(a.sum(kept), moved, below)
}

/// Returns `a - b`. One word may be signed and the other unsigned. Precondition: both have the same width.
///
/// # Examples
///
/// ```
/// use zugyelmas::kernel::mixed_sub_of;
/// use zugyelmas::word::{Outcome, Side};
///
/// assert_eq!(mixed_sub_of(24_i8, 144_u8), Outcome { wrapped: -120, side: Side::Fits });
/// // -168
/// assert_eq!(mixed_sub_of(-24_i8, 144_u8), Outcome { wrapped: 88, side: Side::Below });
/// ```
///
/// # Panics
///
/// Panics unless both words have the same width.
///
/// # Proved
///
/// ```text
/// requires { U.BITS ≡ T.BITS }
/// ensures { StandsFor T.value T.SIGNED T.BITS (T.value a -ℤ U.value b) result }
/// ```
#[inline]
#[track_caller]
#[must_use]
pub fn mixed_sub_of<T: Word, U: RawWord>(a: T, b: U) -> Outcome<T> {
    assert!(
        U::BITS == T::BITS,
        "precondition: both words have the same width"
    );
    // That it is in range bounds the difference.
    let _sign = a.is_below_zero();
    let below = b.is_below_zero();
    let kept = residue_of::<T, U>(b);
    let moved = kept.is_below_zero() != below;
    turned(a.difference(kept), moved, !below)
}

/// Returns the value of one word wrapped to another.
#[inline]
fn residue_of<T: Word, U: RawWord>(b: U) -> T {
    if b.is_below_zero() {
        T::residue(true, b.magnitude() as u128)
    } else {
        T::residue(false, b.magnitude() as u128)
    }
}

/// Returns the outcome of a number that is the number of `outcome`, or, if `moved`, `2^n` less if `below` and `2^n`
/// more otherwise. If it does not fit, it is too small if `below`, and too large otherwise.
#[inline]
fn turned<T: Word>(outcome: Outcome<T>, moved: bool, below: bool) -> Outcome<T> {
    let past = (outcome.side != Side::Fits) != moved;
    let side = if !past {
        Side::Fits
    } else if below {
        Side::Below
    } else {
        Side::Above
    };
    Outcome {
        wrapped: outcome.wrapped,
        side,
    }
}
