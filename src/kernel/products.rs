// Made by `make package` of crates/fixed_kernel/src/products.rt, which is proved: changes go there.

//! Products, rounded down.

use crate::kernel::whole::product;
use crate::kernel::wide::Wide;
use crate::word::{Arithmetic, Integer, Outcome, Word, nearest_of_whole, outcome_of_whole};

/// Returns `a b / 2^frac`, rounded down. Precondition: `frac` is at most the width.
///
/// # Examples
///
/// ```
/// use zugyelmas::kernel::mul_of;
/// use zugyelmas::word::{Outcome, Side};
///
/// // 1.5 * 2.25 is 3.375
/// assert_eq!(mul_of(24_i8, 36, 4), Outcome { wrapped: 54, side: Side::Fits });
/// // -0.5 units, rounded down
/// assert_eq!(mul_of(8_i8, -1, 4), Outcome { wrapped: -1, side: Side::Fits });
/// // 4 * 2 is 8
/// assert_eq!(mul_of(64_i8, 32, 4), Outcome { wrapped: -128, side: Side::Above });
/// ```
///
/// ```should_panic
/// # use zugyelmas::kernel::mul_of;
/// # use zugyelmas::word::{Outcome, Side};
/// # std::panic::set_hook(Box::new(|_| {}));
/// mul_of(24_i8, 36, 9); // the fraction is above the width
/// ```
///
/// # Panics
///
/// Panics unless the fraction frac is at most the width.
///
/// # Proved
///
/// ```text
/// requires { frac ≤ T.BITS }
/// ensures { StandsFor T.value T.SIGNED T.BITS (exact_mul (T.value a) (T.value b) frac) result }
/// ```
///
/// Definitions: [`exact_mul`].
///
/// [`exact_mul`]: crate::definitions::kernel_rows
#[track_caller]
#[must_use]
pub fn mul_of<T: Word>(a: T, b: T, frac: u32) -> Outcome<T> {
    assert!(
        frac <= T::BITS,
        "precondition: the fraction frac is at most the width"
    );
    outcome_of_whole(product(a, b).floored(frac))
}

/// Returns the word nearest to `a b / 2^frac`, rounded down. Loops over words of 8 bits do so in one instruction for 16
/// of them. Precondition: `frac` is at most the width.
///
/// # Examples
///
/// ```
/// use zugyelmas::kernel::mul_nearest_of;
/// use zugyelmas::word::{Outcome, Side};
///
/// assert_eq!(mul_nearest_of(64_i8, 32, 4), 127); // 4 * 2 is 8, and 127 / 16 is 7.9375
/// ```
///
/// # Panics
///
/// Panics unless the fraction frac is at most the width.
///
/// # Proved
///
/// ```text
/// requires { frac ≤ T.BITS }
/// ensures { T.value result ≡ clamp T.SIGNED T.BITS (exact_mul (T.value a) (T.value b) frac) }
/// ```
///
/// Definitions: [`clamp`], [`exact_mul`].
///
/// [`clamp`]: crate::definitions::word_format
/// [`exact_mul`]: crate::definitions::kernel_rows
#[track_caller]
#[must_use]
pub fn mul_nearest_of<T: Word>(a: T, b: T, frac: u32) -> T {
    assert!(
        frac <= T::BITS,
        "precondition: the fraction frac is at most the width"
    );
    nearest_of_whole(product(a, b).floored(frac))
}

/// Returns `a k`, for an integer `k`.
///
/// # Examples
///
/// ```
/// use zugyelmas::kernel::mul_int_of;
/// use zugyelmas::word::{Outcome, Side};
///
/// assert_eq!(mul_int_of(24_i8, 3), Outcome { wrapped: 72, side: Side::Fits });
/// // 144
/// assert_eq!(mul_int_of(24_i8, 6), Outcome { wrapped: -112, side: Side::Above });
/// ```
///
/// # Proved
///
/// ```text
/// ensures { StandsFor T.value T.SIGNED T.BITS (T.value a *ℤ T.value k) result }
/// ```
#[must_use]
pub fn mul_int_of<T: Word>(a: T, k: T) -> Outcome<T> {
    outcome_of_whole(product(a, k))
}

/// Returns `a mul / 2^mul_frac`, rounded down, plus `add`. Precondition: `mul_frac` is at most the width.
///
/// # Examples
///
/// ```
/// use zugyelmas::kernel::mul_add_of;
/// use zugyelmas::word::{Outcome, Side};
///
/// // 1.5 * 2 + 0.5 is 3.5
/// assert_eq!(mul_add_of(24_i8, 32, 8, 4), Outcome { wrapped: 56, side: Side::Fits });
/// // 4 * 2 - 0.5 is 7.5
/// assert_eq!(mul_add_of(64_i8, 32, -8, 4), Outcome { wrapped: 120, side: Side::Fits });
/// // 8.5
/// assert_eq!(mul_add_of(64_i8, 32, 8, 4), Outcome { wrapped: -120, side: Side::Above });
/// ```
///
/// ```should_panic
/// # use zugyelmas::kernel::mul_add_of;
/// # use zugyelmas::word::{Outcome, Side};
/// # std::panic::set_hook(Box::new(|_| {}));
/// mul_add_of(24_i8, 32, 8, 9); // the fraction is above the width
/// ```
///
/// # Panics
///
/// Panics unless the fraction mul_frac is at most the width.
///
/// # Proved
///
/// ```text
/// requires { mul_frac ≤ T.BITS }
/// ensures { StandsFor T.value T.SIGNED T.BITS
///     (exact_mul_add (T.value a) (T.value mul) (T.value add) mul_frac) result }
/// ```
///
/// Definitions: [`exact_mul_add`].
///
/// [`exact_mul_add`]: crate::definitions::kernel_rows
#[track_caller]
#[must_use]
pub fn mul_add_of<T: Word>(a: T, mul: T, add: T, mul_frac: u32) -> Outcome<T> {
    assert!(
        mul_frac <= T::BITS,
        "precondition: the fraction mul_frac is at most the width"
    );
    outcome_of_whole(product(a, mul).floored(mul_frac).plus(add.whole()))
}

/// Returns `c` plus the product of `a` and `b`, which is rounded down to the fraction bits of `c`. A product that is
/// shifted left may need 192 bits, and is never held. Precondition: each number of fraction bits is at most the
/// width.
///
/// # Examples
///
/// ```
/// use zugyelmas::kernel::add_prod_of;
/// use zugyelmas::word::{Outcome, Side};
///
/// // 0.5 + 1.5 * 1.25 is 2.375; the factor 1.25 has 6 fraction bits.
/// assert_eq!(add_prod_of(8_i8, 24, 80, 4, 4, 6), Outcome { wrapped: 38, side: Side::Fits });
/// // 8.5
/// assert_eq!(add_prod_of(8_i8, 64, 32, 4, 4, 4), Outcome { wrapped: -120, side: Side::Above });
/// ```
///
/// ```should_panic
/// # use zugyelmas::kernel::add_prod_of;
/// # use zugyelmas::word::{Outcome, Side};
/// # std::panic::set_hook(Box::new(|_| {}));
/// add_prod_of(8_i8, 24, 80, 4, 4, 9); // a fraction is above the width
/// ```
///
/// # Panics
///
/// Panics unless the fraction c_frac is at most the width, and the fraction a_frac is at most the width, and the fraction b_frac is at most the width.
///
/// # Proved
///
/// ```text
/// requires c_frac { c_frac ≤ T.BITS }
/// requires a_frac { a_frac ≤ T.BITS }
/// requires b_frac { b_frac ≤ T.BITS }
/// ensures { StandsFor T.value T.SIGNED T.BITS
///     (exact_add_prod (T.value c) (T.value a) (T.value b) c_frac a_frac b_frac) result }
/// ```
///
/// Definitions: [`exact_add_prod`].
///
/// [`exact_add_prod`]: crate::definitions::kernel_rows
#[inline]
#[track_caller]
#[must_use]
pub fn add_prod_of<T: Word>(c: T, a: T, b: T, c_frac: u32, a_frac: u32, b_frac: u32) -> Outcome<T> {
    assert!(
        c_frac <= T::BITS,
        "precondition: the fraction c_frac is at most the width"
    );
    assert!(
        a_frac <= T::BITS,
        "precondition: the fraction a_frac is at most the width"
    );
    assert!(
        b_frac <= T::BITS,
        "precondition: the fraction b_frac is at most the width"
    );
    add_prod_at(c, a, b, (a_frac + b_frac) as i32 - c_frac as i32)
}

/// Returns `c` plus the product of `a` and `b`, which is shifted right by `places` and rounded down, or shifted left
/// by `-places`.
#[inline]
pub(crate) fn add_prod_at<T: Word>(c: T, a: T, b: T, places: i32) -> Outcome<T> {
    if places >= 0 {
        add_prod_down(c, a, b, places as u32)
    } else {
        add_prod_up(c, a, b, places.unsigned_abs())
    }
}

/// Returns `c` plus the product of `a` and `b` over `2^by`, rounded down. The product is shifted in two steps, since
/// it may be shifted by its whole width.
#[inline]
fn add_prod_down<T: Word>(c: T, a: T, b: T, by: u32) -> Outcome<T> {
    let half = by / 2;
    let moved = product(a, b).floored(half).floored(by - half);
    outcome_of_whole(moved.plus(c.whole()))
}

/// Returns `c` plus the product of `a` and `b` times `2^by`.
fn add_prod_up<T: Word>(c: T, a: T, b: T, by: u32) -> Outcome<T> {
    Wide::product(a, b)
        .scaled_alike(by)
        .plus(Wide::of(c))
        .outcome_alike()
}
