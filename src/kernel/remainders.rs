// Made by `make package` of crates/fixed_kernel/src/remainders.rt, which is proved: changes go there.

//! Remainders and multiples.

use crate::kernel::whole::fitting;
use crate::word::{Arithmetic, Integer, Outcome, RawWord, Word, outcome_of_whole};

/// Returns `a - b q`, where q is the quotient of `a` and `b`, rounded toward zero. Precondition: `b` is not 0.
///
/// # Examples
///
/// ```
/// use zugyelmas::kernel::rem_of;
/// use zugyelmas::word::{Outcome, Side};
///
/// // 5.5 by 2 leaves 1.5
/// assert_eq!(rem_of(88_i8, 32), Outcome { wrapped: 24, side: Side::Fits });
/// // the sign of the dividend
/// assert_eq!(rem_of(-88_i8, 32), Outcome { wrapped: -24, side: Side::Fits });
/// ```
///
/// ```should_panic
/// # use zugyelmas::kernel::rem_of;
/// # use zugyelmas::word::{Outcome, Side};
/// # std::panic::set_hook(Box::new(|_| {}));
/// rem_of(88_i8, 0); // the divisor is 0
/// ```
///
/// # Panics
///
/// Panics unless the divisor is not 0.
///
/// # Proved
///
/// ```text
/// requires { T.value b ≢ pos 0 }
/// ensures { StandsFor T.value T.SIGNED T.BITS (exact_rem (T.value a) (T.value b)) result }
/// ```
///
/// Definitions: [`exact_rem`].
///
/// [`exact_rem`]: crate::definitions::kernel_rows
#[track_caller]
#[must_use]
pub fn rem_of<T: Word>(a: T, b: T) -> Outcome<T> {
    assert!(b != T::ZERO, "precondition: the divisor is not 0");
    fitting(a.remainder(b))
}

/// Returns `a - d q` for `d = k 2^frac`, where q is the quotient of `a` and d, rounded toward zero. Preconditions:
/// `frac` is at most the width, and `k` is not 0.
///
/// # Examples
///
/// ```
/// use zugyelmas::kernel::rem_int_of;
/// use zugyelmas::word::{Outcome, Side};
///
/// // 5.5 by 2 leaves 1.5
/// assert_eq!(rem_int_of(88_i8, 2, 4), Outcome { wrapped: 24, side: Side::Fits });
/// // the sign of the dividend
/// assert_eq!(rem_int_of(-88_i8, 2, 4), Outcome { wrapped: -24, side: Side::Fits });
/// ```
///
/// ```should_panic
/// # use zugyelmas::kernel::rem_int_of;
/// # use zugyelmas::word::{Outcome, Side};
/// # std::panic::set_hook(Box::new(|_| {}));
/// rem_int_of(88_i8, 0, 4); // the divisor is 0
/// ```
///
/// # Panics
///
/// Panics unless the fraction frac is at most the width, and the divisor is not 0.
///
/// # Proved
///
/// ```text
/// requires frac { frac ≤ T.BITS }
/// requires divisor { T.value k ≢ pos 0 }
/// ensures { StandsFor T.value T.SIGNED T.BITS
///     (exact_rem (T.value a) (units (T.value k) frac)) result }
/// ```
///
/// Definitions: [`exact_rem`], [`units`].
///
/// [`exact_rem`]: crate::definitions::kernel_rows
/// [`units`]: crate::definitions::kernel_rows
#[track_caller]
#[must_use]
pub fn rem_int_of<T: Word>(a: T, k: T, frac: u32) -> Outcome<T> {
    assert!(
        frac <= T::BITS,
        "precondition: the fraction frac is at most the width"
    );
    assert!(k != T::ZERO, "precondition: the divisor is not 0");
    let divisor = k.whole().scaled(frac);
    outcome_of_whole(a.whole().remainder(divisor))
}

/// Returns the Euclidean remainder of `a` and `b`. Precondition: `b` is not 0.
///
/// # Examples
///
/// ```
/// use zugyelmas::kernel::rem_euclid_of;
/// use zugyelmas::word::{Outcome, Side};
///
/// // 5.5 by 2 leaves 1.5
/// assert_eq!(rem_euclid_of(88_i8, 32), Outcome { wrapped: 24, side: Side::Fits });
/// // -5.5 by 2 leaves 0.5
/// assert_eq!(rem_euclid_of(-88_i8, 32), Outcome { wrapped: 8, side: Side::Fits });
/// ```
///
/// ```should_panic
/// # use zugyelmas::kernel::rem_euclid_of;
/// # use zugyelmas::word::{Outcome, Side};
/// # std::panic::set_hook(Box::new(|_| {}));
/// rem_euclid_of(88_i8, 0); // the divisor is 0
/// ```
///
/// # Panics
///
/// Panics unless the divisor is not 0.
///
/// # Proved
///
/// ```text
/// requires { T.value b ≢ pos 0 }
/// ensures { StandsFor T.value T.SIGNED T.BITS (euclidean_remainder (T.value a) (T.value b)) result }
/// ```
///
/// Definitions: [`euclidean_remainder`].
///
/// [`euclidean_remainder`]: crate::definitions::word_quotient
#[track_caller]
#[must_use]
pub fn rem_euclid_of<T: Word>(a: T, b: T) -> Outcome<T> {
    assert!(b != T::ZERO, "precondition: the divisor is not 0");
    fitting(a.euclid_remainder(b))
}

/// Returns the Euclidean remainder of `a` and `k 2^frac`. Preconditions: `frac` is at most the width, and `k` is not
/// 0.
///
/// # Examples
///
/// ```
/// use zugyelmas::kernel::rem_euclid_int_of;
/// use zugyelmas::word::{Outcome, Side};
///
/// // -5.5 by 2 leaves 0.5
/// assert_eq!(rem_euclid_int_of(-88_i8, 2, 4), Outcome { wrapped: 8, side: Side::Fits });
/// // 8.9375
/// assert_eq!(rem_euclid_int_of(-1_i8, 9, 4), Outcome { wrapped: -113, side: Side::Above });
/// ```
///
/// ```should_panic
/// # use zugyelmas::kernel::rem_euclid_int_of;
/// # use zugyelmas::word::{Outcome, Side};
/// # std::panic::set_hook(Box::new(|_| {}));
/// rem_euclid_int_of(88_i8, 0, 4); // the divisor is 0
/// ```
///
/// # Panics
///
/// Panics unless the fraction frac is at most the width, and the divisor is not 0.
///
/// # Proved
///
/// ```text
/// requires frac { frac ≤ T.BITS }
/// requires divisor { T.value k ≢ pos 0 }
/// ensures { StandsFor T.value T.SIGNED T.BITS
///     (euclidean_remainder (T.value a) (units (T.value k) frac)) result }
/// ```
///
/// Definitions: [`euclidean_remainder`], [`units`].
///
/// [`euclidean_remainder`]: crate::definitions::word_quotient
/// [`units`]: crate::definitions::kernel_rows
#[track_caller]
#[must_use]
pub fn rem_euclid_int_of<T: Word>(a: T, k: T, frac: u32) -> Outcome<T> {
    assert!(
        frac <= T::BITS,
        "precondition: the fraction frac is at most the width"
    );
    assert!(k != T::ZERO, "precondition: the divisor is not 0");
    let divisor = k.whole().scaled(frac);
    outcome_of_whole(a.whole().euclid_remainder(divisor))
}

/// Returns the smallest multiple of `b` that is at least `a` if `b` is positive, and the largest one that is at most
/// `a` if `b` is negative. Precondition: `b` is not 0.
///
/// # Examples
///
/// ```
/// use zugyelmas::kernel::next_multiple_of_of;
/// use zugyelmas::word::{Outcome, Side};
///
/// assert_eq!(next_multiple_of_of(40_i8, 16), Outcome { wrapped: 48, side: Side::Fits });
/// // downward
/// assert_eq!(next_multiple_of_of(40_i8, -16), Outcome { wrapped: 32, side: Side::Fits });
/// // 128
/// assert_eq!(next_multiple_of_of(120_i8, 16), Outcome { wrapped: -128, side: Side::Above });
/// ```
///
/// ```should_panic
/// # use zugyelmas::kernel::next_multiple_of_of;
/// # use zugyelmas::word::{Outcome, Side};
/// # std::panic::set_hook(Box::new(|_| {}));
/// next_multiple_of_of(40_i8, 0); // the divisor is 0
/// ```
///
/// # Panics
///
/// Panics unless the divisor is not 0.
///
/// # Proved
///
/// ```text
/// requires { T.value b ≢ pos 0 }
/// ensures { StandsFor T.value T.SIGNED T.BITS
///     (exact_next_multiple_of (T.value a) (T.value b)) result }
/// ```
///
/// Definitions: [`exact_next_multiple_of`].
///
/// [`exact_next_multiple_of`]: crate::definitions::kernel_rows
#[track_caller]
#[must_use]
pub fn next_multiple_of_of<T: Word>(a: T, b: T) -> Outcome<T> {
    assert!(b != T::ZERO, "precondition: the divisor is not 0");
    let over = a.euclid_remainder(b);
    if b.is_below_zero() {
        a.difference(over)
    } else if over == T::ZERO {
        a.sum(over)
    } else {
        a.sum(b.difference(over).wrapped)
    }
}
