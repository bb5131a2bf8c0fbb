// Made by `make package` of crates/fixed_kernel/src/overflowing.rt, which is proved: changes go there.

//! Products and quotients that return the wrapped word, and whether the exact result does not fit.

use crate::kernel::products::{add_prod_at, mul_of};
use crate::kernel::quotients::div_of;
use crate::word::{Word, overflowing_of};

/// Returns `lhs rhs / 2^frac_nbits`, rounded down and wrapped, and whether the exact result does not fit. Operands
/// and result are bits. Precondition: `frac_nbits` is at most the width. (This is `overflowing_mul` of `fixed`.)
///
/// # Examples
///
/// ```
/// use zugyelmas::kernel::overflowing_mul;
///
/// assert_eq!(overflowing_mul(24_i8, 36, 4), (54, false)); // 1.5 * 2.25 is 3.375
/// assert_eq!(overflowing_mul(64_i8, 32, 4), (-128, true)); // 4 * 2 is 8, wrapped to -8
/// ```
///
/// ```should_panic
/// # use zugyelmas::kernel::overflowing_mul;
/// # std::panic::set_hook(Box::new(|_| {}));
/// overflowing_mul(24_i8, 36, 9); // the fraction is above the width
/// ```
///
/// # Panics
///
/// Panics unless the fraction frac_nbits is at most the width.
///
/// # Proved
///
/// ```text
/// requires { frac_nbits ≤ T.BITS }
/// ensures { Some (T.value result.0, result.1)
///     ≡ overflowing T.SIGNED T.BITS (Some (exact_mul (T.value lhs) (T.value rhs) frac_nbits)) }
/// ```
///
/// Definitions: [`overflowing`], [`exact_mul`].
///
/// [`overflowing`]: crate::definitions::word_policies
/// [`exact_mul`]: crate::definitions::kernel_rows
#[track_caller]
#[must_use]
pub fn overflowing_mul<T: Word>(lhs: T, rhs: T, frac_nbits: u32) -> (T, bool) {
    assert!(
        frac_nbits <= T::BITS,
        "precondition: the fraction frac_nbits is at most the width"
    );
    overflowing_of(mul_of(lhs, rhs, frac_nbits))
}

/// Returns `lhs 2^frac_nbits / rhs`, rounded toward zero and wrapped, and whether the exact result does not fit.
/// Operands and result are bits. Preconditions: `frac_nbits` is at most the width, and `rhs` is not 0. (This is
/// `overflowing_div` of `fixed`.)
///
/// # Examples
///
/// ```
/// use zugyelmas::kernel::overflowing_div;
///
/// assert_eq!(overflowing_div(48_i8, 32, 4), (24, false)); // 3 / 2 is 1.5
/// // 4 / 0.5 is 8, wrapped to -8
/// assert_eq!(overflowing_div(64_i8, 8, 4), (-128, true));
/// ```
///
/// ```should_panic
/// # use zugyelmas::kernel::overflowing_div;
/// # std::panic::set_hook(Box::new(|_| {}));
/// overflowing_div(48_i8, 0, 4); // the divisor is 0
/// ```
///
/// # Panics
///
/// Panics unless the fraction frac_nbits is at most the width, and the divisor is not 0.
///
/// # Proved
///
/// ```text
/// requires frac_nbits { frac_nbits ≤ T.BITS }
/// requires divisor { T.value rhs ≢ pos 0 }
/// ensures { Some (T.value result.0, result.1)
///     ≡ overflowing T.SIGNED T.BITS (Some (exact_div (T.value lhs) (T.value rhs) frac_nbits)) }
/// ```
///
/// Definitions: [`overflowing`], [`exact_div`].
///
/// [`overflowing`]: crate::definitions::word_policies
/// [`exact_div`]: crate::definitions::kernel_rows
#[track_caller]
#[must_use]
pub fn overflowing_div<T: Word>(lhs: T, rhs: T, frac_nbits: u32) -> (T, bool) {
    assert!(
        frac_nbits <= T::BITS,
        "precondition: the fraction frac_nbits is at most the width"
    );
    assert!(rhs != T::ZERO, "precondition: the divisor is not 0");
    overflowing_of(div_of(lhs, rhs, frac_nbits))
}

/// Returns `lhs mul / 2^frac_nbits`, rounded down, plus `add`, wrapped, and whether the exact sum does not fit. The
/// product alone may be out of range. Operands and result are bits. If `frac_nbits` is negative, the product is
/// shifted left. Precondition: `frac_nbits` is from `-n` to `2n`, where n is the width. (This is
/// `overflowing_mul_add` of `fixed`.)
///
/// # Examples
///
/// ```
/// use zugyelmas::kernel::overflowing_mul_add;
///
/// // 1.5 * 2 + 0.5 is 3.5
/// assert_eq!(overflowing_mul_add(24_i8, 32, 8, 4), (56, false));
/// // 4 * 2 - 0.5 is 7.5
/// assert_eq!(overflowing_mul_add(64_i8, 32, -8, 4), (120, false));
/// assert_eq!(overflowing_mul_add(3_i8, 2, 1, -4), (97, false)); // 3 * 2 * 16 + 1
/// ```
///
/// ```should_panic
/// # use zugyelmas::kernel::overflowing_mul_add;
/// # std::panic::set_hook(Box::new(|_| {}));
/// overflowing_mul_add(24_i8, 32, 8, 17); // the fraction is above twice the width
/// ```
///
/// # Panics
///
/// Panics unless frac_nbits is at least minus the width, and frac_nbits is at most twice the width.
///
/// # Proved
///
/// ```text
/// requires lower { neg_ℤ (pos T.BITS) ≤ℤ frac_nbits }
/// requires upper { frac_nbits ≤ℤ pos (2 * T.BITS) }
/// ensures { Some (T.value result.0, result.1) ≡ overflowing T.SIGNED T.BITS
///     (Some (exact_add_prod_at (T.value add) (T.value lhs) (T.value mul) frac_nbits)) }
/// ```
///
/// Definitions: [`overflowing`], [`exact_add_prod_at`].
///
/// [`overflowing`]: crate::definitions::word_policies
/// [`exact_add_prod_at`]: crate::definitions::kernel_rows
#[track_caller]
#[must_use]
pub fn overflowing_mul_add<T: Word>(lhs: T, mul: T, add: T, frac_nbits: i32) -> (T, bool) {
    assert!(
        -(T::BITS as i32) <= frac_nbits,
        "precondition: frac_nbits is at least minus the width"
    );
    assert!(
        frac_nbits <= 2 * T::BITS as i32,
        "precondition: frac_nbits is at most twice the width"
    );
    overflowing_of(add_prod_at(add, lhs, mul, frac_nbits))
}
