// Made by `make package` of crates/fixed_natural/src/logarithms.rt, which is proved: changes go there.

//! Logarithms to the bases e and 10. Each is a logarithm to the base 2, which has more digits, times a constant.

use crate::elementary::logarithms::enclosed_log2;
use crate::natural::scaling::{guard_of, in_places, scaled};
use crate::word::{Outcome, RawWord, Valued, outcome_of_magnitude};

/// The natural logarithm of 2, in units of `2^-128`, rounded down.
const LN_2: u128 = 0xb172_17f7_d1cf_79ab_c9e3_b398_03f2_f6af;

/// The logarithm of 2 to the base 10, in units of `2^-128`, rounded down.
const LOG10_2: u128 = 0x4d10_4d42_7de7_fbcc_47c4_acd6_05be_48bc;

/// Returns the logarithm of `a 2^-frac` to a base, in units of `2^-frac`. The factor is the logarithm of 2 to that
/// base, in units of `2^-128`, rounded down. Preconditions: `a` is above 0, `frac` is at most the width, and
/// `factor + 1` is at most 3/4, which is `3 * 2^126`.
fn log_of<T: RawWord>(a: T, frac: u32, factor: u128) -> Outcome<T> {
    let guard = guard_of(T::BITS);
    let units = enclosed_log2(T::BITS, a.magnitude(), frac + guard) + 2;
    let less = in_places(frac, frac + guard);
    if less <= units {
        outcome_of_magnitude(false, scaled(units - less, factor + 1, guard))
    } else {
        outcome_of_magnitude(true, scaled(less - units, factor, guard) + 1)
    }
}

/// Returns the natural logarithm of `a 2^-frac`, in units of `2^-frac`. For the result r and the exact logarithm l in
/// units, `r - 2^-k <= l < r + 1`, where k is 24 on words of up to 32 bits and 32 on words of 64 bits. The logarithm of
/// 1 is exactly 0. Preconditions: `a` is above 0, and `frac` is at most the width.
///
/// # Examples
///
/// ```
/// use zugyelmas::natural::ln_of;
/// use zugyelmas::word::{Outcome, Side};
///
/// // 0.6931.., rounded down to 0.6875
/// assert_eq!(ln_of(32_i8, 4), Outcome { wrapped: 11, side: Side::Fits });
/// // the logarithm of 1 is exactly 0
/// assert_eq!(ln_of(16_i8, 4), Outcome { wrapped: 0, side: Side::Fits });
/// // that of 10 is 2.3025..
/// assert_eq!(ln_of(655360_i32, 16), Outcome { wrapped: 150902, side: Side::Fits });
/// // -4.8520.. does not fit
/// assert_eq!(ln_of(1_i8, 7), Outcome { wrapped: -110, side: Side::Below });
/// ```
///
/// ```should_panic
/// # use zugyelmas::natural::ln_of;
/// # use zugyelmas::word::{Outcome, Side};
/// # std::panic::set_hook(Box::new(|_| {}));
/// ln_of(0_i8, 4); // only numbers above 0 have one
/// ```
///
/// ```should_panic
/// # use zugyelmas::natural::ln_of;
/// # use zugyelmas::word::{Outcome, Side};
/// # std::panic::set_hook(Box::new(|_| {}));
/// ln_of(32_i8, 9); // the fraction is above the width
/// ```
///
/// # Panics
///
/// Panics unless the fraction frac is at most the width, and the number is above 0.
///
/// # Proved
///
/// ```text
/// requires frac { frac ≤ T.BITS }
/// requires sign { pos 0 <ℤ T.value a }
/// ensures { (r : ℤ) × IsLn (log_room T.BITS) (T.value a) frac r × StandsFor T.value T.SIGNED T.BITS r result }
/// ```
///
/// Definitions: [`IsLn`], [`log_room`].
///
/// [`IsLn`]: crate::definitions::natural_logs
/// [`log_room`]: crate::definitions::natural_logs
#[track_caller]
#[must_use]
pub fn ln_of<T: RawWord>(a: T, frac: u32) -> Outcome<T> {
    assert!(
        frac <= T::BITS,
        "precondition: the fraction frac is at most the width"
    );
    assert!(
        !a.is_below_zero() && a.magnitude() > 0,
        "precondition: the number is above 0"
    );
    log_of(a, frac, LN_2)
}

/// Returns the logarithm of `a 2^-frac` to the base 10, in units of `2^-frac`. For the result r and the exact logarithm
/// l in units, `r - 2^-k <= l < r + 1`, where k is 24 on words of up to 32 bits and 32 on words of 64 bits. The
/// logarithm of a power of 10 is exact. Preconditions: `a` is above 0, and `frac` is at most the width.
///
/// # Examples
///
/// ```
/// use zugyelmas::natural::log10_of;
/// use zugyelmas::word::{Outcome, Side};
///
/// // 0.3010.., rounded down to 0.25
/// assert_eq!(log10_of(32_i8, 4), Outcome { wrapped: 4, side: Side::Fits });
/// // that of 10 is exactly 1
/// assert_eq!(log10_of(655360_i32, 16), Outcome { wrapped: 65536, side: Side::Fits });
/// assert_eq!(log10_of(8_u8, 4).side, Side::Below); // -0.3010.. does not fit
/// ```
///
/// ```should_panic
/// # use zugyelmas::natural::log10_of;
/// # use zugyelmas::word::{Outcome, Side};
/// # std::panic::set_hook(Box::new(|_| {}));
/// log10_of(0_i8, 4); // only numbers above 0 have one
/// ```
///
/// ```should_panic
/// # use zugyelmas::natural::log10_of;
/// # use zugyelmas::word::{Outcome, Side};
/// # std::panic::set_hook(Box::new(|_| {}));
/// log10_of(32_i8, 9); // the fraction is above the width
/// ```
///
/// # Panics
///
/// Panics unless the fraction frac is at most the width, and the number is above 0.
///
/// # Proved
///
/// ```text
/// requires frac { frac ≤ T.BITS }
/// requires sign { pos 0 <ℤ T.value a }
/// ensures { (r : ℤ) × IsLog10 (log_room T.BITS) (T.value a) frac r × StandsFor T.value T.SIGNED T.BITS r result }
/// ```
///
/// Definitions: [`IsLog10`], [`log_room`].
///
/// [`IsLog10`]: crate::definitions::natural_logs
/// [`log_room`]: crate::definitions::natural_logs
#[track_caller]
#[must_use]
pub fn log10_of<T: RawWord>(a: T, frac: u32) -> Outcome<T> {
    assert!(
        frac <= T::BITS,
        "precondition: the fraction frac is at most the width"
    );
    assert!(
        !a.is_below_zero() && a.magnitude() > 0,
        "precondition: the number is above 0"
    );
    log_of(a, frac, LOG10_2)
}
