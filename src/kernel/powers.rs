// Made by `make package` of crates/fixed_kernel/src/powers.rt, which is proved: changes go there.

//! Square roots and powers of two.

use crate::root::scaled_root;
use crate::word::{Arithmetic, Digits, Outcome, RawWord, Silent, Steps, Word, outcome_of};

/// Returns the root of `a 2^frac`, rounded down. Preconditions: `frac` is at most the width, and `a` is not negative.
///
/// # Examples
///
/// ```
/// use zugyelmas::kernel::sqrt_of;
/// use zugyelmas::word::{Outcome, Side};
///
/// // 2.25 has the root 1.5
/// assert_eq!(sqrt_of(36_i8, 4), Outcome { wrapped: 24, side: Side::Fits });
/// // 1.414.., rounded down to 1.375
/// assert_eq!(sqrt_of(32_i8, 4), Outcome { wrapped: 22, side: Side::Fits });
/// // 0.25 has the root 0.5
/// assert_eq!(sqrt_of(64_i8, 8), Outcome { wrapped: -128, side: Side::Above });
/// ```
///
/// ```should_panic
/// # use zugyelmas::kernel::sqrt_of;
/// # use zugyelmas::word::{Outcome, Side};
/// # std::panic::set_hook(Box::new(|_| {}));
/// sqrt_of(-16_i8, 4); // -1 has no root
/// ```
///
/// # Panics
///
/// Panics unless the fraction frac is at most the width, and the number is not below 0.
///
/// # Proved
///
/// ```text
/// requires frac { frac ≤ T.BITS }
/// requires sign { pos 0 ≤ℤ T.value a }
/// ensures { StandsFor T.value T.SIGNED T.BITS (root_of (T.value a) frac) result }
/// ```
///
/// Definitions: [`root_of`].
///
/// [`root_of`]: crate::definitions::root_root
#[track_caller]
#[must_use]
pub fn sqrt_of<T: Word>(a: T, frac: u32) -> Outcome<T> {
    assert!(
        frac <= T::BITS,
        "precondition: the fraction frac is at most the width"
    );
    assert!(
        !a.is_below_zero(),
        "precondition: the number is not below 0"
    );
    outcome_of(false, scaled_root(a.magnitude(), frac) as u128)
}

/// Returns 1 less than the smallest power of two that is at least `a`. Precondition: the word is unsigned.
#[inline]
fn less_than_power<T: Word>(a: T) -> T {
    // That it is in range bounds its power.
    let _sign = a.is_below_zero();
    if a <= T::ONE {
        return T::ZERO;
    }
    let mut steps = Steps::new(Silent::new());
    let before = a.difference(T::ONE).wrapped.to_unsigned();
    let zeros = before.leading_zeros(&mut steps);
    T::from_unsigned(T::MAX.to_unsigned().shr(zeros, &mut steps))
}

/// Returns the smallest power of two that is at least `a`. Precondition: the word is unsigned.
///
/// # Examples
///
/// ```
/// use zugyelmas::kernel::next_power_of_two_of;
/// use zugyelmas::word::{Outcome, Side};
///
/// assert_eq!(next_power_of_two_of(40_u8), Outcome { wrapped: 64, side: Side::Fits });
/// assert_eq!(next_power_of_two_of(0_u8), Outcome { wrapped: 1, side: Side::Fits });
/// // 256
/// assert_eq!(next_power_of_two_of(129_u8), Outcome { wrapped: 0, side: Side::Above });
/// ```
///
/// # Panics
///
/// Panics unless the word is unsigned.
///
/// # Proved
///
/// ```text
/// requires { T.SIGNED ≡ false }
/// ensures { StandsFor T.value T.SIGNED T.BITS (exact_next_power_of_two (T.value a)) result }
/// ```
///
/// Definitions: [`exact_next_power_of_two`].
///
/// [`exact_next_power_of_two`]: crate::definitions::kernel_rows
#[track_caller]
#[must_use]
pub fn next_power_of_two_of<T: Word>(a: T) -> Outcome<T> {
    assert!(!T::SIGNED, "precondition: the word is unsigned");
    less_than_power(a).sum(T::ONE)
}
