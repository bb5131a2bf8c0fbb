// Made by `make package` of crates/fixed_kernel/src/rounded_quotients.rt, which is proved: changes go there.

//! Quotients with a named rounding.

use crate::kernel::wide::{Wide, step};
use crate::word::{Outcome, Rounding, Word};

/// Returns `a 2^frac / b`, rounded as named. Preconditions: `frac` is at most the width, and `b` is not 0.
///
/// # Examples
///
/// ```
/// use zugyelmas::kernel::div_round_of;
/// use zugyelmas::word::{Outcome, Rounding, Side};
///
/// // -1 / 3 is -5.33.. units.
/// assert_eq!(div_round_of(-16_i8, 48, 4, Rounding::Down), Outcome { wrapped: -6, side: Side::Fits });
/// assert_eq!(div_round_of(-16_i8, 48, 4, Rounding::Zero), Outcome { wrapped: -5, side: Side::Fits });
/// // 1.5 units, a tie
/// assert_eq!(div_round_of(3_i8, 32, 4, Rounding::Even), Outcome { wrapped: 2, side: Side::Fits });
/// ```
///
/// ```should_panic
/// # use zugyelmas::kernel::div_round_of;
/// # use zugyelmas::word::{Outcome, Rounding, Side};
/// # std::panic::set_hook(Box::new(|_| {}));
/// div_round_of(-16_i8, 0, 4, Rounding::Even); // the divisor is 0
/// ```
///
/// # Panics
///
/// Panics unless the fraction frac is at most the width, and the divisor is not 0.
///
/// # Proved
///
/// ```text
/// requires frac { frac ≤ T.BITS }
/// requires divisor { T.value b ≢ pos 0 }
/// ensures { StandsFor T.value T.SIGNED T.BITS
///     (rounded_div (T.value a) (T.value b) frac rounding) result }
/// ```
///
/// Definitions: [`rounded_div`].
///
/// [`rounded_div`]: crate::definitions::kernel_rounded_rows
#[track_caller]
#[must_use]
pub fn div_round_of<T: Word>(a: T, b: T, frac: u32, rounding: Rounding) -> Outcome<T> {
    assert!(
        frac <= T::BITS,
        "precondition: the fraction frac is at most the width"
    );
    assert!(b != T::ZERO, "precondition: the divisor is not 0");
    Wide::of(a)
        .scaled(frac)
        .rounded(Wide::of(b), rounding)
        .outcome()
}

/// Returns `a / k`, rounded as named, for an integer `k`. Precondition: `k` is not 0.
///
/// # Examples
///
/// ```
/// use zugyelmas::kernel::div_int_round_of;
/// use zugyelmas::word::{Outcome, Rounding, Side};
///
/// assert_eq!(div_int_round_of(-3_i8, 2, Rounding::Down), Outcome { wrapped: -2, side: Side::Fits });
/// assert_eq!(div_int_round_of(-3_i8, 2, Rounding::Zero), Outcome { wrapped: -1, side: Side::Fits });
/// // a tie
/// assert_eq!(div_int_round_of(-5_i8, 2, Rounding::Even), Outcome { wrapped: -2, side: Side::Fits });
/// ```
///
/// ```should_panic
/// # use zugyelmas::kernel::div_int_round_of;
/// # use zugyelmas::word::{Outcome, Rounding, Side};
/// # std::panic::set_hook(Box::new(|_| {}));
/// div_int_round_of(-3_i8, 0, Rounding::Even); // the divisor is 0
/// ```
///
/// # Panics
///
/// Panics unless the divisor is not 0.
///
/// # Proved
///
/// ```text
/// requires { T.value k ≢ pos 0 }
/// ensures { StandsFor T.value T.SIGNED T.BITS
///     (rounded (T.value a) (T.value k) rounding) result }
/// ```
///
/// Definitions: [`rounded`].
///
/// [`rounded`]: crate::definitions::kernel_rounded
#[track_caller]
#[must_use]
pub fn div_int_round_of<T: Word>(a: T, k: T, rounding: Rounding) -> Outcome<T> {
    assert!(k != T::ZERO, "precondition: the divisor is not 0");
    Wide::of(a).rounded(Wide::of(k), rounding).outcome()
}

/// Returns `2^(2 frac) / a`, rounded as named. Preconditions: `frac` is at most the width, and `a` is not 0.
///
/// # Examples
///
/// ```
/// use zugyelmas::kernel::recip_round_of;
/// use zugyelmas::word::{Outcome, Rounding, Side};
///
/// // -1 / 3 is -5.33.. units.
/// assert_eq!(recip_round_of(-48_i8, 4, Rounding::Down), Outcome { wrapped: -6, side: Side::Fits });
/// assert_eq!(recip_round_of(-48_i8, 4, Rounding::Even), Outcome { wrapped: -5, side: Side::Fits });
/// ```
///
/// ```should_panic
/// # use zugyelmas::kernel::recip_round_of;
/// # use zugyelmas::word::{Outcome, Rounding, Side};
/// # std::panic::set_hook(Box::new(|_| {}));
/// recip_round_of(0_i8, 4, Rounding::Even); // the divisor is 0
/// ```
///
/// # Panics
///
/// Panics unless the fraction frac is at most the width, and the divisor is not 0.
///
/// # Proved
///
/// ```text
/// requires frac { frac ≤ T.BITS }
/// requires divisor { T.value a ≢ pos 0 }
/// ensures { StandsFor T.value T.SIGNED T.BITS
///     (rounded_recip (T.value a) frac rounding) result }
/// ```
///
/// Definitions: [`rounded_recip`].
///
/// [`rounded_recip`]: crate::definitions::kernel_rounded_rows
#[track_caller]
#[must_use]
pub fn recip_round_of<T: Word>(a: T, frac: u32, rounding: Rounding) -> Outcome<T> {
    assert!(
        frac <= T::BITS,
        "precondition: the fraction frac is at most the width"
    );
    assert!(a != T::ZERO, "precondition: the divisor is not 0");
    let divisor = Wide::of(a);
    if frac < 64 {
        let one = Wide {
            below_zero: false,
            magnitude: 1 << (2 * frac),
        };
        one.rounded(divisor, rounding).outcome()
    } else {
        let (quotient, remainder) = whole_over(divisor.magnitude);
        let more = step(
            rounding,
            divisor.below_zero,
            quotient,
            remainder,
            divisor.magnitude - 1,
        );
        let number = Wide {
            below_zero: divisor.below_zero,
            magnitude: quotient + more,
        };
        number.outcome_alike()
    }
}

/// Returns the quotient and the remainder of `2^128` by the divisor. Instead of the quotient `2^128` it returns
/// `2^127`, which has the same outcome in every word.
fn whole_over(divisor: u128) -> (u128, u128) {
    if divisor == 1 {
        return (1 << 127, 0);
    }
    let quotient = (u128::MAX - (divisor - 1)) / divisor + 1;
    (quotient, (u128::MAX - (divisor - 1)) % divisor)
}
