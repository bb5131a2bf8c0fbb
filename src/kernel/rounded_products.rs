// Made by `make package` of crates/fixed_kernel/src/rounded_products.rt, which is proved: changes go there.

//! Products with a named rounding.

use crate::kernel::products::add_prod_of;
use crate::kernel::wide::Wide;
use crate::word::{Outcome, Rounding, Word};

/// Returns `a b / 2^frac`, rounded as named. Precondition: `frac` is at most the width.
///
/// # Examples
///
/// ```
/// use zugyelmas::kernel::mul_round_of;
/// use zugyelmas::word::{Outcome, Rounding, Side};
///
/// // 0.5 * -0.0625 is -0.5 units.
/// assert_eq!(mul_round_of(8_i8, -1, 4, Rounding::Down), Outcome { wrapped: -1, side: Side::Fits });
/// assert_eq!(mul_round_of(8_i8, -1, 4, Rounding::Zero), Outcome { wrapped: 0, side: Side::Fits });
/// // 1.5 units, a tie
/// assert_eq!(mul_round_of(24_i8, 1, 4, Rounding::Even), Outcome { wrapped: 2, side: Side::Fits });
/// // 8
/// assert_eq!(mul_round_of(64_i8, 32, 4, Rounding::Even), Outcome { wrapped: -128, side: Side::Above });
/// ```
///
/// ```should_panic
/// # use zugyelmas::kernel::mul_round_of;
/// # use zugyelmas::word::{Outcome, Rounding, Side};
/// # std::panic::set_hook(Box::new(|_| {}));
/// mul_round_of(24_i8, 1, 9, Rounding::Even); // the fraction is above the width
/// ```
///
/// # Panics
///
/// Panics unless the fraction frac is at most the width.
///
/// # Proved
///
/// ```text
/// requires { frac ≤ T.BITS }
/// ensures { StandsFor T.value T.SIGNED T.BITS
///     (rounded_mul (T.value a) (T.value b) frac rounding) result }
/// ```
///
/// Definitions: [`rounded_mul`].
///
/// [`rounded_mul`]: crate::definitions::kernel_rounded_rows
#[track_caller]
#[must_use]
pub fn mul_round_of<T: Word>(a: T, b: T, frac: u32, rounding: Rounding) -> Outcome<T> {
    assert!(
        frac <= T::BITS,
        "precondition: the fraction frac is at most the width"
    );
    Wide::product(a, b).rounded_at(frac, rounding).outcome()
}

/// Returns `a mul / 2^mul_frac`, rounded as named, plus `add`. Precondition: `mul_frac` is at most the width.
///
/// # Examples
///
/// ```
/// use zugyelmas::kernel::mul_add_round_of;
/// use zugyelmas::word::{Outcome, Rounding, Side};
///
/// // 0.5 * -0.0625 is -0.5 units, and 1 is 16 units. The product is rounded, and not the sum.
/// assert_eq!(mul_add_round_of(8_i8, -1, 16, 4, Rounding::Down), Outcome { wrapped: 15, side: Side::Fits });
/// assert_eq!(mul_add_round_of(8_i8, -1, 16, 4, Rounding::Zero), Outcome { wrapped: 16, side: Side::Fits });
/// // 8.5
/// assert_eq!(mul_add_round_of(64_i8, 32, 8, 4, Rounding::Zero), Outcome { wrapped: -120, side: Side::Above });
/// ```
///
/// ```should_panic
/// # use zugyelmas::kernel::mul_add_round_of;
/// # use zugyelmas::word::{Outcome, Rounding, Side};
/// # std::panic::set_hook(Box::new(|_| {}));
/// mul_add_round_of(8_i8, -1, 16, 9, Rounding::Zero); // the fraction is above the width
/// ```
///
/// # Panics
///
/// Panics unless the fraction mul_frac is at most the width.
///
/// # Proved
///
/// ```text
/// requires { mul_frac ≤ T.BITS }
/// ensures { StandsFor T.value T.SIGNED T.BITS
///     (rounded_mul_add (T.value a) (T.value mul) (T.value add) mul_frac rounding) result }
/// ```
///
/// Definitions: [`rounded_mul_add`].
///
/// [`rounded_mul_add`]: crate::definitions::kernel_rounded_rows
#[track_caller]
#[must_use]
pub fn mul_add_round_of<T: Word>(
    a: T,
    mul: T,
    add: T,
    mul_frac: u32,
    rounding: Rounding,
) -> Outcome<T> {
    assert!(
        mul_frac <= T::BITS,
        "precondition: the fraction mul_frac is at most the width"
    );
    Wide::product(a, mul)
        .rounded_at(mul_frac, rounding)
        .plus(Wide::of(add))
        .outcome()
}

/// Returns `c` plus the product of `a` and `b`, which is rounded as named to the fraction bits of `c`. A product that
/// is shifted left is not rounded; it may need 192 bits, and is never held. Precondition: each number of fraction
/// bits is at most the width.
///
/// # Examples
///
/// ```
/// use zugyelmas::kernel::add_prod_round_of;
/// use zugyelmas::word::{Outcome, Rounding, Side};
///
/// // 0.5 * -0.0625 is -0.5 units, and 1 is 16 units. The product is rounded, and not the sum.
/// assert_eq!(add_prod_round_of(16_i8, 8, -1, 4, 4, 4, Rounding::Down), Outcome { wrapped: 15, side: Side::Fits });
/// assert_eq!(add_prod_round_of(16_i8, 8, -1, 4, 4, 4, Rounding::Even), Outcome { wrapped: 16, side: Side::Fits });
/// ```
///
/// ```should_panic
/// # use zugyelmas::kernel::add_prod_round_of;
/// # use zugyelmas::word::{Outcome, Rounding, Side};
/// # std::panic::set_hook(Box::new(|_| {}));
/// // a fraction is above the width
/// add_prod_round_of(16_i8, 8, -1, 4, 4, 9, Rounding::Even);
/// ```
///
/// # Panics
///
/// Panics unless the fraction c_frac is at most the width, and the fraction a_frac is at most the width, and the fraction b_frac is at most the width.
///
/// # Proved
///
/// ```text
/// requires c_frac { c_frac ≤ T.BITS }
/// requires a_frac { a_frac ≤ T.BITS }
/// requires b_frac { b_frac ≤ T.BITS }
/// ensures { StandsFor T.value T.SIGNED T.BITS
///     (rounded_add_prod (T.value c) (T.value a) (T.value b) c_frac a_frac b_frac rounding) result }
/// ```
///
/// Definitions: [`rounded_add_prod`].
///
/// [`rounded_add_prod`]: crate::definitions::kernel_rounded_rows
#[track_caller]
#[must_use]
pub fn add_prod_round_of<T: Word>(
    c: T,
    a: T,
    b: T,
    c_frac: u32,
    a_frac: u32,
    b_frac: u32,
    rounding: Rounding,
) -> Outcome<T> {
    assert!(
        c_frac <= T::BITS,
        "precondition: the fraction c_frac is at most the width"
    );
    assert!(
        a_frac <= T::BITS,
        "precondition: the fraction a_frac is at most the width"
    );
    assert!(
        b_frac <= T::BITS,
        "precondition: the fraction b_frac is at most the width"
    );
    if a_frac + b_frac >= c_frac {
        add_prod_rounded(c, a, b, a_frac + b_frac - c_frac, rounding)
    } else {
        add_prod_of(c, a, b, c_frac, a_frac, b_frac)
    }
}

/// Returns `c` plus the product of `a` and `b` over `2^by`, rounded as named.
fn add_prod_rounded<T: Word>(c: T, a: T, b: T, by: u32, rounding: Rounding) -> Outcome<T> {
    Wide::product(a, b)
        .rounded_at(by, rounding)
        .plus(Wide::of(c))
        .outcome()
}
