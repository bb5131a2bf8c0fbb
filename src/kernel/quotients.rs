// Made by `make package` of crates/fixed_kernel/src/quotients.rt, which is proved: changes go there.

//! Quotients, rounded toward zero, and Euclidean quotients.

use crate::kernel::rounded_quotients::recip_round_of;
use crate::kernel::whole::scaled;
use crate::word::{
    Arithmetic, Integer, Outcome, RawWord, Rounding, Word, nearest_of_whole, outcome_of_kept,
    outcome_of_whole, saturating_of,
};

/// Returns `a 2^frac / b`, rounded toward zero. Preconditions: `frac` is at most the width, and `b` is not 0.
///
/// # Examples
///
/// ```
/// use zugyelmas::kernel::div_of;
/// use zugyelmas::word::{Outcome, Side};
///
/// // 3 / 2 is 1.5
/// assert_eq!(div_of(48_i8, 32, 4), Outcome { wrapped: 24, side: Side::Fits });
/// // -5.33.. units, toward zero
/// assert_eq!(div_of(-16_i8, 48, 4), Outcome { wrapped: -5, side: Side::Fits });
/// // 4 / 0.5 is 8
/// assert_eq!(div_of(64_i8, 8, 4), Outcome { wrapped: -128, side: Side::Above });
/// ```
///
/// ```should_panic
/// # use zugyelmas::kernel::div_of;
/// # use zugyelmas::word::{Outcome, Side};
/// # std::panic::set_hook(Box::new(|_| {}));
/// div_of(48_i8, 0, 4); // the divisor is 0
/// ```
///
/// # Panics
///
/// Panics unless the fraction frac is at most the width, and the divisor is not 0.
///
/// # Proved
///
/// ```text
/// requires frac { frac ≤ T.BITS }
/// requires divisor { T.value b ≢ pos 0 }
/// ensures { StandsFor T.value T.SIGNED T.BITS (exact_div (T.value a) (T.value b) frac) result }
/// ```
///
/// Definitions: [`exact_div`].
///
/// [`exact_div`]: crate::definitions::kernel_rows
#[track_caller]
#[must_use]
pub fn div_of<T: Word>(a: T, b: T, frac: u32) -> Outcome<T> {
    assert!(
        frac <= T::BITS,
        "precondition: the fraction frac is at most the width"
    );
    assert!(b != T::ZERO, "precondition: the divisor is not 0");
    let dividend = a.whole().scaled(frac);
    let below = a.is_below_zero() != b.is_below_zero();
    outcome_of_kept(dividend.over(b.whole()), below)
}

/// Returns the word nearest to `a 2^frac / b`, rounded toward zero. Signed words of 8 and 16 bits choose between the
/// quotient and the ends before they cut it. Preconditions: `frac` is at most the width, and `b` is not 0.
///
/// # Examples
///
/// ```
/// use zugyelmas::kernel::div_nearest_of;
/// use zugyelmas::word::{Outcome, Side};
///
/// // 4 / 0.25 is 16, and 127 / 16 is 7.9375
/// assert_eq!(div_nearest_of(64_i8, 4, 4), 127);
/// ```
///
/// # Panics
///
/// Panics unless the fraction frac is at most the width, and the divisor is not 0.
///
/// # Proved
///
/// ```text
/// requires frac { frac ≤ T.BITS }
/// requires divisor { T.value b ≢ pos 0 }
/// ensures { T.value result ≡ clamp T.SIGNED T.BITS (exact_div (T.value a) (T.value b) frac) }
/// ```
///
/// Definitions: [`clamp`], [`exact_div`].
///
/// [`clamp`]: crate::definitions::word_format
/// [`exact_div`]: crate::definitions::kernel_rows
#[track_caller]
#[must_use]
pub fn div_nearest_of<T: Word>(a: T, b: T, frac: u32) -> T {
    assert!(
        frac <= T::BITS,
        "precondition: the fraction frac is at most the width"
    );
    assert!(b != T::ZERO, "precondition: the divisor is not 0");
    if T::SIGNED && T::BITS < 32 && frac < T::BITS {
        nearest_of_whole(a.whole().scaled(frac).over(b.whole()))
    } else {
        saturating_of(div_of(a, b, frac))
    }
}

/// Returns `a / k`, rounded toward zero, for an integer `k`. Precondition: `k` is not 0.
///
/// # Examples
///
/// ```
/// use zugyelmas::kernel::div_int_of;
/// use zugyelmas::word::{Outcome, Side};
///
/// assert_eq!(div_int_of(72_i8, 3), Outcome { wrapped: 24, side: Side::Fits });
/// // 128
/// assert_eq!(div_int_of(i8::MIN, -1), Outcome { wrapped: i8::MIN, side: Side::Above });
/// ```
///
/// ```should_panic
/// # use zugyelmas::kernel::div_int_of;
/// # use zugyelmas::word::{Outcome, Side};
/// # std::panic::set_hook(Box::new(|_| {}));
/// div_int_of(72_i8, 0); // the divisor is 0
/// ```
///
/// # Panics
///
/// Panics unless the divisor is not 0.
///
/// # Proved
///
/// ```text
/// requires { T.value k ≢ pos 0 }
/// ensures { StandsFor T.value T.SIGNED T.BITS (truncated_quotient (T.value a) (T.value k)) result }
/// ```
///
/// Definitions: [`truncated_quotient`].
///
/// [`truncated_quotient`]: crate::definitions::word_quotient
#[track_caller]
#[must_use]
pub fn div_int_of<T: Word>(a: T, k: T) -> Outcome<T> {
    assert!(k != T::ZERO, "precondition: the divisor is not 0");
    a.quotient(k)
}

/// Returns `2^(2 frac) / a`, rounded toward zero. Preconditions: `frac` is at most the width, and `a` is not 0.
///
/// # Examples
///
/// ```
/// use zugyelmas::kernel::recip_of;
/// use zugyelmas::word::{Outcome, Side};
///
/// // 1 / 2 is 0.5
/// assert_eq!(recip_of(32_i8, 4), Outcome { wrapped: 8, side: Side::Fits });
/// // 1 / 0.125 is 8
/// assert_eq!(recip_of(2_i8, 4), Outcome { wrapped: -128, side: Side::Above });
/// ```
///
/// ```should_panic
/// # use zugyelmas::kernel::recip_of;
/// # use zugyelmas::word::{Outcome, Side};
/// # std::panic::set_hook(Box::new(|_| {}));
/// recip_of(0_i8, 4); // the divisor is 0
/// ```
///
/// # Panics
///
/// Panics unless the fraction frac is at most the width, and the divisor is not 0.
///
/// # Proved
///
/// ```text
/// requires frac { frac ≤ T.BITS }
/// requires divisor { T.value a ≢ pos 0 }
/// ensures { StandsFor T.value T.SIGNED T.BITS (exact_recip (T.value a) frac) result }
/// ```
///
/// Definitions: [`exact_recip`].
///
/// [`exact_recip`]: crate::definitions::kernel_rows
#[track_caller]
#[must_use]
pub fn recip_of<T: Word>(a: T, frac: u32) -> Outcome<T> {
    assert!(
        frac <= T::BITS,
        "precondition: the fraction frac is at most the width"
    );
    assert!(a != T::ZERO, "precondition: the divisor is not 0");
    if frac < T::BITS {
        let one = T::ONE.whole().scaled(2 * frac);
        outcome_of_kept(one.over(a.whole()), a.is_below_zero())
    } else {
        recip_round_of(a, frac, Rounding::Zero)
    }
}

/// Returns the Euclidean quotient of `a` and `b`, which is an integer, times `2^frac`. Preconditions: `frac` is at
/// most the width, and `b` is not 0.
///
/// # Examples
///
/// ```
/// use zugyelmas::kernel::div_euclid_of;
/// use zugyelmas::word::{Outcome, Side};
///
/// // 5.5 by 2 is 2
/// assert_eq!(div_euclid_of(88_i8, 32, 4), Outcome { wrapped: 32, side: Side::Fits });
/// // -5.5 by 2 is -3
/// assert_eq!(div_euclid_of(-88_i8, 32, 4), Outcome { wrapped: -48, side: Side::Fits });
/// // 7.5 by 0.5 is 15
/// assert_eq!(div_euclid_of(120_i8, 8, 4), Outcome { wrapped: -16, side: Side::Above });
/// ```
///
/// ```should_panic
/// # use zugyelmas::kernel::div_euclid_of;
/// # use zugyelmas::word::{Outcome, Side};
/// # std::panic::set_hook(Box::new(|_| {}));
/// div_euclid_of(88_i8, 0, 4); // the divisor is 0
/// ```
///
/// # Panics
///
/// Panics unless the fraction frac is at most the width, and the divisor is not 0.
///
/// # Proved
///
/// ```text
/// requires frac { frac ≤ T.BITS }
/// requires divisor { T.value b ≢ pos 0 }
/// ensures { StandsFor T.value T.SIGNED T.BITS
///     (exact_div_euclid (T.value a) (T.value b) frac) result }
/// ```
///
/// Definitions: [`exact_div_euclid`].
///
/// [`exact_div_euclid`]: crate::definitions::kernel_rows
#[track_caller]
#[must_use]
pub fn div_euclid_of<T: Word>(a: T, b: T, frac: u32) -> Outcome<T> {
    assert!(
        frac <= T::BITS,
        "precondition: the fraction frac is at most the width"
    );
    assert!(b != T::ZERO, "precondition: the divisor is not 0");
    if T::BITS < 32 && frac < T::BITS {
        div_euclid_short(a, b, frac)
    } else {
        scaled(a.euclid_quotient(b), frac)
    }
}

/// Returns the same. The quotient is found in the integer that holds products. Precondition: `frac` is below the width.
#[inline]
fn div_euclid_short<T: Word>(a: T, b: T, frac: u32) -> Outcome<T> {
    outcome_of_whole(a.whole().euclid_quotient(b.whole()).scaled(frac))
}

/// Returns the Euclidean quotient of `a` and `k 2^frac`, which is an integer, times `2^frac`. Preconditions: `frac`
/// is at most the width, and `k` is not 0.
///
/// # Examples
///
/// ```
/// use zugyelmas::kernel::div_euclid_int_of;
/// use zugyelmas::word::{Outcome, Side};
///
/// // 5.5 by 2 is 2
/// assert_eq!(div_euclid_int_of(88_i8, 2, 4), Outcome { wrapped: 32, side: Side::Fits });
/// // -5.5 by 2 is -3
/// assert_eq!(div_euclid_int_of(-88_i8, 2, 4), Outcome { wrapped: -48, side: Side::Fits });
/// // -8 by -1 is 8
/// assert_eq!(div_euclid_int_of(i8::MIN, -1, 4), Outcome { wrapped: i8::MIN, side: Side::Above });
/// ```
///
/// ```should_panic
/// # use zugyelmas::kernel::div_euclid_int_of;
/// # use zugyelmas::word::{Outcome, Side};
/// # std::panic::set_hook(Box::new(|_| {}));
/// div_euclid_int_of(88_i8, 0, 4); // the divisor is 0
/// ```
///
/// # Panics
///
/// Panics unless the fraction frac is at most the width, and the divisor is not 0.
///
/// # Proved
///
/// ```text
/// requires frac { frac ≤ T.BITS }
/// requires divisor { T.value k ≢ pos 0 }
/// ensures { StandsFor T.value T.SIGNED T.BITS
///     (exact_div_euclid (T.value a) (units (T.value k) frac) frac) result }
/// ```
///
/// Definitions: [`exact_div_euclid`], [`units`].
///
/// [`exact_div_euclid`]: crate::definitions::kernel_rows
/// [`units`]: crate::definitions::kernel_rows
#[track_caller]
#[must_use]
pub fn div_euclid_int_of<T: Word>(a: T, k: T, frac: u32) -> Outcome<T> {
    assert!(
        frac <= T::BITS,
        "precondition: the fraction frac is at most the width"
    );
    assert!(k != T::ZERO, "precondition: the divisor is not 0");
    let divisor = k.whole().scaled(frac);
    let quotient = a.whole().euclid_quotient(divisor);
    scaled(outcome_of_whole(quotient), frac)
}
