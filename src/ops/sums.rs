// Made by `make package` of crates/fixed_ops/src/sums.rt, which is proved: changes go there.

//! Sums and products of slices.

use crate::num::{Constants, Fixed};
use crate::word::{RawWord, Valued, Word};

/// Returns the sum of the numbers, added to 0 in order. Precondition: each partial sum fits. (This is `Sum` of
/// `fixed`.)
///
/// # Examples
///
/// ```
/// use zugyelmas::prelude::*;
/// use zugyelmas::sum;
/// let number = FixedI8::<4>::from_num::<f64>;
///
/// assert_eq!(sum(&[number(1.5), number(2.0), number(-0.25)]), number(3.25));
/// assert_eq!(sum::<i8, 4>(&[]), number(0.0));
/// ```
///
/// # Panics
///
/// With debug assertions, panics unless each sum fits. Without them, the result is wrapped.
///
/// # Proved
///
/// ```text
/// requires { SumsFit T.SIGNED T.BITS (map (λ x. T.value x.bits) items.now) }
/// ensures { T.value result.bits ≡ sum_of (map (λ x. T.value x.bits) items.now) }
/// ```
///
/// Definitions: [`SumsFit`], [`sum_of`].
///
/// [`SumsFit`]: crate::definitions::ops_folds
/// [`sum_of`]: crate::definitions::ops_folds
#[track_caller]
#[must_use]
pub fn sum<T: Word, const F: u32>(items: &[Fixed<T, F>]) -> Fixed<T, F> {
    let mut total = Fixed::<T, F>::ZERO;
    for item in items {
        total += *item;
    }
    total
}

/// Returns the product of the numbers, multiplied in order, with each step rounded down. Returns 1 if there are no
/// numbers. Preconditions: F is at most the width, and each partial product fits, or 1 if there are no numbers. (This
/// is `Product` of `fixed`.)
///
/// # Examples
///
/// ```
/// use zugyelmas::prelude::*;
/// use zugyelmas::product;
/// let number = FixedI8::<4>::from_num::<f64>;
///
/// assert_eq!(product(&[number(1.5), number(2.0), number(-0.5)]), number(-1.5));
/// assert_eq!(product::<i8, 4>(&[]), number(1.0));
/// ```
///
/// # Compile errors
///
/// Compiles only if the fraction F is at most the width.
///
/// # Panics
///
/// With debug assertions, panics unless each product fits. Without them, the result is wrapped.
///
/// # Proved
///
/// ```text
/// requires fraction { F ≤ T.BITS }
/// requires fits { ProductsFit T.SIGNED T.BITS F (map (λ x. T.value x.bits) items.now) }
/// ensures { T.value result.bits ≡ product_of F (map (λ x. T.value x.bits) items.now) }
/// ```
///
/// Definitions: [`ProductsFit`], [`product_of`].
///
/// [`ProductsFit`]: crate::definitions::ops_folds
/// [`product_of`]: crate::definitions::ops_folds
#[track_caller]
#[must_use]
pub fn product<T: Word, const F: u32>(items: &[Fixed<T, F>]) -> Fixed<T, F> {
    const {
        assert!(
            F <= T::BITS,
            "precondition: the fraction F is at most the width"
        )
    };
    match items {
        [] => Fixed::one(),
        [first, rest @ ..] => product_from(*first, rest),
    }
}

/// Returns the product of a number and all numbers of a slice.
#[track_caller]
fn product_from<T: Word, const F: u32>(first: Fixed<T, F>, rest: &[Fixed<T, F>]) -> Fixed<T, F> {
    let mut total = first;
    for item in rest {
        total *= *item;
    }
    total
}
