// Made by `make package` of crates/fixed_block/src/operations.rt, which is proved: changes go there.

//! The operations on blocks.

use crate::block::each::{Each, fits_of};
use crate::block::pairs::Pairs;
use crate::convert::{Castable, convert_round_of};
use crate::kernel::{abs_of, add_of, dist_of, mul_add_of, mul_int_of, mul_of, neg_of, sub_of};
use crate::word::{
    Arithmetic, Integer, Outcome, RawWord, Rounding, SignedWord, Valued, Word, nearest_of,
    nearest_of_whole, outcome_of_whole,
};

/// Returns a factor whose product with `x` is that of `by`. For signed words of 16 bits it is 0 if `x` is 0. A factor
/// that is chosen for each number stays a word of 16 bits in a loop, which multiplies such words in half the steps: one
/// that never changes would be made an integer of 32 bits before the loop.
#[inline(always)]
fn factor_for<T: Word>(x: T, by: T) -> T {
    if T::SIGNED && T::BITS == 16 && x == T::ZERO {
        T::ZERO
    } else {
        by
    }
}

/// Returns the product of two words. Loops over short words take many such products in one instruction.
#[inline(always)]
fn whole_product<T: Word>(x: T, k: T) -> T::Whole {
    x.whole().times(k.whole())
}

/// Returns whether the products of `k` and all numbers of a block fit: whether the sum of their parts above the word is
/// 0. Compilers do not use vectors where each product is compared with the greatest word. Preconditions: the words are
/// unsigned, and the block has at most 64 numbers.
#[inline(always)]
fn short_products_fit<T: Word>(block: &[T], k: T) -> bool {
    let mut past = T::ZERO.whole();
    for x in block {
        past = past.plus(whole_product(*x, k).floored(T::BITS));
    }
    past.equals(T::ZERO.whole())
}

/// The negative of `x`.
#[derive(Clone, Copy, Debug)]
pub struct Neg;

impl<T: Word> Each<T> for Neg {
    #[inline(always)]
    fn is_ready(&self) -> bool {
        true
    }

    #[inline(always)]
    #[track_caller]
    fn outcome(&self, x: T) -> Outcome<T> {
        assert!(
            crate::block::Each::<T>::is_ready(self),
            "precondition: the operation is ready"
        );
        neg_of(x)
    }

    #[inline(always)]
    fn is_tested_first(&self) -> bool {
        T::BITS <= 32
    }
}

/// The magnitude of `x`.
#[derive(Clone, Copy, Debug)]
pub struct Abs;

impl<T: SignedWord> Each<T> for Abs {
    #[inline(always)]
    fn is_ready(&self) -> bool {
        true
    }

    #[inline(always)]
    #[track_caller]
    fn outcome(&self, x: T) -> Outcome<T> {
        assert!(
            crate::block::Each::<T>::is_ready(self),
            "precondition: the operation is ready"
        );
        abs_of(x)
    }

    #[inline(always)]
    fn is_tested_first(&self) -> bool {
        T::BITS <= 32
    }
}

/// The product `x by / 2^frac`, rounded down. Precondition: `frac` is at most the width.
#[derive(Clone, Copy, Debug)]
pub struct Scale<T> {
    /// The other factor.
    pub by: T,
    /// The fraction of the other factor.
    pub frac: u32,
}

impl<T: Word> Each<T> for Scale<T> {
    #[inline(always)]
    fn is_ready(&self) -> bool {
        self.frac <= T::BITS
    }

    #[inline(always)]
    #[track_caller]
    fn outcome(&self, x: T) -> Outcome<T> {
        assert!(
            crate::block::Each::<T>::is_ready(self),
            "precondition: the operation is ready"
        );
        mul_of(x, self.by, self.frac)
    }

    #[inline(always)]
    fn is_by_fours(&self) -> bool {
        T::BITS == 64
    }

    #[inline(always)]
    fn is_tested_first(&self) -> bool {
        T::BITS <= 16 || (T::BITS == 32 && !T::SIGNED)
    }

    #[inline(always)]
    #[track_caller]
    fn wrapped(&self, x: T) -> T {
        assert!(
            crate::block::Each::<T>::is_ready(self),
            "precondition: the operation is ready"
        );
        mul_of(x, factor_for(x, self.by), self.frac).wrapped
    }

    #[inline(always)]
    #[track_caller]
    fn nearest(&self, x: T) -> T {
        assert!(
            crate::block::Each::<T>::is_ready(self),
            "precondition: the operation is ready"
        );
        nearest_of(mul_of(x, factor_for(x, self.by), self.frac))
    }
}

/// The product `x k`, for an integer `k`.
#[derive(Clone, Copy, Debug)]
pub struct MulInt<T> {
    /// The integer.
    pub k: T,
}

impl<T: Word> Each<T> for MulInt<T> {
    #[inline(always)]
    fn is_ready(&self) -> bool {
        true
    }

    #[inline(always)]
    #[track_caller]
    fn outcome(&self, x: T) -> Outcome<T> {
        assert!(
            crate::block::Each::<T>::is_ready(self),
            "precondition: the operation is ready"
        );
        if T::BITS > 16 {
            mul_int_of(x, self.k)
        } else {
            outcome_of_whole(whole_product(x, self.k))
        }
    }

    #[inline(always)]
    fn is_by_fours(&self) -> bool {
        T::BITS == 64
    }

    #[inline(always)]
    #[track_caller]
    fn nearest(&self, x: T) -> T {
        assert!(
            crate::block::Each::<T>::is_ready(self),
            "precondition: the operation is ready"
        );
        if T::BITS == 64 && !T::SIGNED {
            nearest_of(mul_int_of(x, self.k))
        } else {
            nearest_of_whole(whole_product(x, factor_for(x, self.k)))
        }
    }

    #[inline(always)]
    #[track_caller]
    fn all_fit(&self, block: &[T]) -> bool {
        assert!(
            crate::block::Each::<T>::is_ready(self),
            "precondition: the operation is ready"
        );
        assert!(
            block.len() <= 64,
            "precondition: the block has at most 64 numbers"
        );
        if !T::SIGNED && T::BITS <= 16 {
            short_products_fit(block, self.k)
        } else {
            self.all_fit_singly(block)
        }
    }
}

/// The number `x / 2^from` in units of `2^-to`, rounded. Preconditions: both fractions are at most the width.
#[derive(Clone, Copy, Debug)]
pub struct Convert {
    /// The fraction of the numbers of the block.
    pub from: u32,
    /// The fraction of the results.
    pub to: u32,
    /// How the results are rounded.
    pub rounding: Rounding,
}

impl<T: Castable + Word> Each<T> for Convert {
    #[inline(always)]
    fn is_ready(&self) -> bool {
        self.from <= T::BITS && self.to <= T::BITS
    }

    #[inline(always)]
    #[track_caller]
    fn outcome(&self, x: T) -> Outcome<T> {
        assert!(
            crate::block::Each::<T>::is_ready(self),
            "precondition: the operation is ready"
        );
        convert_round_of(x, self.from, self.to, self.rounding)
    }

    #[inline(always)]
    fn is_tested_first(&self) -> bool {
        T::BITS <= 32 || !T::SIGNED
    }
}

/// Returns the number `x / 2^from` in units of `2^-to`. Preconditions: `from` is at most `to`, and `to` is at most the
/// width.
#[inline(always)]
fn raised<T: Castable + Word>(x: T, convert: Convert) -> T::Whole {
    x.whole().scaled(convert.to - convert.from)
}

/// A conversion to at least as many fraction bits, which rounds nothing: each number is shifted left by `to - from`.
/// Preconditions: `from` is at most `to`, and `to` is at most the width.
#[derive(Clone, Copy, Debug)]
pub struct Raise {
    /// The conversion.
    pub convert: Convert,
}

impl<T: Castable + Word> Each<T> for Raise {
    #[inline(always)]
    fn is_ready(&self) -> bool {
        self.convert.from <= self.convert.to && self.convert.to <= T::BITS
    }

    #[inline(always)]
    #[track_caller]
    fn outcome(&self, x: T) -> Outcome<T> {
        assert!(
            crate::block::Each::<T>::is_ready(self),
            "precondition: the operation is ready"
        );
        outcome_of_whole(raised(x, self.convert))
    }

    #[inline(always)]
    #[track_caller]
    fn nearest(&self, x: T) -> T {
        assert!(
            crate::block::Each::<T>::is_ready(self),
            "precondition: the operation is ready"
        );
        if T::BITS == 32 && !T::SIGNED {
            nearest_of_whole(raised(x, self.convert))
        } else {
            nearest_of(self.outcome(x))
        }
    }

    #[inline(always)]
    fn is_tested_first(&self) -> bool {
        T::BITS <= 32 || !T::SIGNED
    }
}

/// Returns whether `x + y` fits. Loops over signed words take many such tests of signs in one instruction.
#[inline(always)]
fn sum_fits<T: Word>(x: T, y: T) -> bool {
    let sum = add_of(x, y);
    if T::SIGNED {
        let below_zero = x.is_below_zero();
        below_zero != y.is_below_zero() || sum.wrapped.is_below_zero() == below_zero
    } else {
        fits_of(sum)
    }
}

/// Returns whether `x - y` fits, by its signs as `sum_fits` does.
#[inline(always)]
fn difference_fits<T: Word>(x: T, y: T) -> bool {
    let difference = sub_of(x, y);
    if T::SIGNED {
        let below_zero = x.is_below_zero();
        below_zero == y.is_below_zero() || difference.wrapped.is_below_zero() == below_zero
    } else {
        fits_of(difference)
    }
}

/// The sum `x + y`.
#[derive(Clone, Copy, Debug)]
pub struct Add;

impl<T: Word> Pairs<T> for Add {
    #[inline(always)]
    fn is_ready(&self) -> bool {
        true
    }

    #[inline(always)]
    #[track_caller]
    fn outcome(&self, x: T, y: T) -> Outcome<T> {
        assert!(
            crate::block::Pairs::<T>::is_ready(self),
            "precondition: the operation is ready"
        );
        add_of(x, y)
    }

    #[inline(always)]
    #[track_caller]
    fn fits(&self, x: T, y: T) -> bool {
        assert!(
            crate::block::Pairs::<T>::is_ready(self),
            "precondition: the operation is ready"
        );
        sum_fits(x, y)
    }

    #[inline(always)]
    fn is_tested_first(&self) -> bool {
        T::SIGNED || T::BITS <= 16
    }
}

/// The difference `x - y`.
#[derive(Clone, Copy, Debug)]
pub struct Sub;

impl<T: Word> Pairs<T> for Sub {
    #[inline(always)]
    fn is_ready(&self) -> bool {
        true
    }

    #[inline(always)]
    #[track_caller]
    fn outcome(&self, x: T, y: T) -> Outcome<T> {
        assert!(
            crate::block::Pairs::<T>::is_ready(self),
            "precondition: the operation is ready"
        );
        sub_of(x, y)
    }

    #[inline(always)]
    #[track_caller]
    fn fits(&self, x: T, y: T) -> bool {
        assert!(
            crate::block::Pairs::<T>::is_ready(self),
            "precondition: the operation is ready"
        );
        difference_fits(x, y)
    }

    #[inline(always)]
    fn is_tested_first(&self) -> bool {
        T::SIGNED || T::BITS <= 16
    }
}

/// The magnitude of `x - y`.
#[derive(Clone, Copy, Debug)]
pub struct Dist;

impl<T: Word> Pairs<T> for Dist {
    #[inline(always)]
    fn is_ready(&self) -> bool {
        true
    }

    #[inline(always)]
    #[track_caller]
    fn outcome(&self, x: T, y: T) -> Outcome<T> {
        assert!(
            crate::block::Pairs::<T>::is_ready(self),
            "precondition: the operation is ready"
        );
        dist_of(x, y)
    }
}

/// The product `x y / 2^frac`, rounded down. Precondition: `frac` is at most the width.
#[derive(Clone, Copy, Debug)]
pub struct Mul {
    /// The fraction of the numbers.
    pub frac: u32,
}

impl<T: Word> Pairs<T> for Mul {
    #[inline(always)]
    fn is_ready(&self) -> bool {
        self.frac <= T::BITS
    }

    #[inline(always)]
    #[track_caller]
    fn outcome(&self, x: T, y: T) -> Outcome<T> {
        assert!(
            crate::block::Pairs::<T>::is_ready(self),
            "precondition: the operation is ready"
        );
        mul_of(x, y, self.frac)
    }

    #[inline(always)]
    fn is_by_fours(&self) -> bool {
        T::BITS == 64
    }
}

/// The sum `x + y by / 2^frac`, with the product rounded down. Precondition: `frac` is at most the width.
#[derive(Clone, Copy, Debug)]
pub struct MulAdd<T> {
    /// The other factor.
    pub by: T,
    /// The fraction of the other factor.
    pub frac: u32,
}

impl<T: Word> Pairs<T> for MulAdd<T> {
    #[inline(always)]
    fn is_ready(&self) -> bool {
        self.frac <= T::BITS
    }

    #[inline(always)]
    #[track_caller]
    fn outcome(&self, x: T, y: T) -> Outcome<T> {
        assert!(
            crate::block::Pairs::<T>::is_ready(self),
            "precondition: the operation is ready"
        );
        mul_add_of(y, self.by, x, self.frac)
    }

    #[inline(always)]
    fn is_by_fours(&self) -> bool {
        T::BITS == 64
    }

    #[inline(always)]
    #[track_caller]
    fn wrapped(&self, x: T, y: T) -> T {
        assert!(
            crate::block::Pairs::<T>::is_ready(self),
            "precondition: the operation is ready"
        );
        mul_add_of(y, factor_for(y, self.by), x, self.frac).wrapped
    }
}
