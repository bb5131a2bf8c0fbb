// Made by `make package` of crates/fixed_block/src/pairs.rt, which is proved: changes go there.

//! Loops over two blocks, of which the first is written.

use crate::block::each::fits_of;
use crate::word::{Outcome, Word, checked_of, saturating_of};

/// An operation on two numbers, with what it needs besides the numbers, such as a fraction.
pub trait Pairs<T: Word> {
    /// Returns whether the operation is ready: whether it has what it requires.
    ///
    /// # Examples
    ///
    /// ```
    /// use zugyelmas::block::{
    ///     Abs, Add, Each, Mul, MulAdd, Neg, Pairs, Scale, checked_each, checked_pairs, dot_of, saturating_each,
    ///     saturating_pairs, wrapping_each, wrapping_pairs,
    /// };
    /// use zugyelmas::word::Side;
    ///
    /// assert!(Pairs::<i8>::is_ready(&Mul { frac: 8 }));
    /// assert!(!Pairs::<i8>::is_ready(&Mul { frac: 9 })); // the fraction is above the width
    /// ```
    ///
    /// # Proved
    ///
    /// ```text
    /// ensures { IsTrue result ↔ pairs_ready self.now }
    /// ```
    #[must_use]
    fn is_ready(&self) -> bool;

    /// Returns the outcome that stands for the exact result. Precondition: the operation is ready.
    ///
    /// # Examples
    ///
    /// ```
    /// use zugyelmas::block::{
    ///     Abs, Add, Each, Mul, MulAdd, Neg, Pairs, Scale, checked_each, checked_pairs, dot_of, saturating_each,
    ///     saturating_pairs, wrapping_each, wrapping_pairs,
    /// };
    /// use zugyelmas::word::Side;
    ///
    /// assert_eq!(Mul { frac: 4 }.outcome(24_i8, 40).wrapped, 60); // 1.5 * 2.5 = 3.75
    /// assert_eq!(Add.outcome(100_i8, 100).side, Side::Above); // 12.5 does not fit
    /// ```
    ///
    /// # Panics
    ///
    /// Panics unless the operation is ready.
    ///
    /// # Proved
    ///
    /// ```text
    /// requires { pairs_ready self.now }
    /// ensures { StandsFor T.value T.SIGNED T.BITS (exact self.now (T.value x) (T.value y)) result }
    /// ```
    #[must_use]
    fn outcome(&self, x: T, y: T) -> Outcome<T>;

    /// Returns whether checked loops are faster where they test many numbers before they write them. The answer changes
    /// nothing else.
    ///
    /// # Examples
    ///
    /// ```
    /// use zugyelmas::block::{
    ///     Abs, Add, Each, Mul, MulAdd, Neg, Pairs, Scale, checked_each, checked_pairs, dot_of, saturating_each,
    ///     saturating_pairs, wrapping_each, wrapping_pairs,
    /// };
    /// use zugyelmas::word::Side;
    ///
    /// assert!(Pairs::<i8>::is_tested_first(&Add)); // 16 of 8 bits in one instruction
    /// assert!(!Pairs::<u64>::is_tested_first(&Add));
    /// ```
    #[inline(always)]
    #[must_use]
    fn is_tested_first(&self) -> bool {
        T::BITS <= 16
    }

    /// Returns whether loops that write every number are faster by four numbers at a time. The answer changes nothing
    /// else.
    ///
    /// # Examples
    ///
    /// ```
    /// use zugyelmas::block::{
    ///     Abs, Add, Each, Mul, MulAdd, Neg, Pairs, Scale, checked_each, checked_pairs, dot_of, saturating_each,
    ///     saturating_pairs, wrapping_each, wrapping_pairs,
    /// };
    /// use zugyelmas::word::Side;
    ///
    /// assert!(Pairs::<i64>::is_by_fours(&Mul { frac: 16 }));
    /// assert!(!Pairs::<i64>::is_by_fours(&Add)); // two of 64 bits in one instruction
    /// ```
    #[inline(always)]
    #[must_use]
    fn is_by_fours(&self) -> bool {
        false
    }

    /// Returns whether the exact result fits. Precondition: the operation is ready.
    ///
    /// # Examples
    ///
    /// ```
    /// use zugyelmas::block::{
    ///     Abs, Add, Each, Mul, MulAdd, Neg, Pairs, Scale, checked_each, checked_pairs, dot_of, saturating_each,
    ///     saturating_pairs, wrapping_each, wrapping_pairs,
    /// };
    /// use zugyelmas::word::Side;
    ///
    /// assert!(Add.fits(40_i8, 24)); // 2.5 + 1.5 = 4.0
    /// assert!(!Add.fits(100_i8, 100)); // 12.5 is above the range
    /// ```
    ///
    /// # Panics
    ///
    /// Panics unless the operation is ready.
    ///
    /// # Proved
    ///
    /// ```text
    /// requires { pairs_ready self.now }
    /// ensures { result ≡ fits T.SIGNED T.BITS (exact self.now (T.value x) (T.value y)) }
    /// ```
    ///
    /// Definitions: [`fits`].
    ///
    /// [`fits`]: crate::definitions::word_format
    #[inline(always)]
    #[track_caller]
    #[must_use]
    fn fits(&self, x: T, y: T) -> bool {
        assert!(
            crate::block::Pairs::<T>::is_ready(self),
            "precondition: the operation is ready"
        );
        fits_of(self.outcome(x, y))
    }

    /// Returns the number of the word that differs from the exact result by a multiple of `2^n` units, where n is the
    /// width. Precondition: the operation is ready.
    ///
    /// # Examples
    ///
    /// ```
    /// use zugyelmas::block::{
    ///     Abs, Add, Each, Mul, MulAdd, Neg, Pairs, Scale, checked_each, checked_pairs, dot_of, saturating_each,
    ///     saturating_pairs, wrapping_each, wrapping_pairs,
    /// };
    /// use zugyelmas::word::Side;
    ///
    /// assert_eq!(Mul { frac: 4 }.wrapped(24_i8, 40), 60); // 1.5 * 2.5 = 3.75
    /// assert_eq!(Add.wrapped(100_i8, 100), -56); // 12.5 does not fit, and wraps to -3.5
    /// ```
    ///
    /// # Panics
    ///
    /// Panics unless the operation is ready.
    ///
    /// # Proved
    ///
    /// ```text
    /// requires { pairs_ready self.now }
    /// ensures { T.value result ≡ wrap T.SIGNED T.BITS (exact self.now (T.value x) (T.value y)) }
    /// ```
    ///
    /// Definitions: [`wrap`].
    ///
    /// [`wrap`]: crate::definitions::word_format
    #[inline(always)]
    #[track_caller]
    #[must_use]
    fn wrapped(&self, x: T, y: T) -> T {
        assert!(
            crate::block::Pairs::<T>::is_ready(self),
            "precondition: the operation is ready"
        );
        self.outcome(x, y).wrapped
    }
}

/// Replaces each number of the first block by the number of the word that is nearest to the exact result for it and the
/// number at the same place of the other block. Preconditions: the operation is ready, and both blocks have the same
/// length.
///
/// # Examples
///
/// ```
/// use zugyelmas::block::{
///     Abs, Add, Each, Mul, MulAdd, Neg, Pairs, Scale, checked_each, checked_pairs, dot_of, saturating_each,
///     saturating_pairs, wrapping_each, wrapping_pairs,
/// };
/// use zugyelmas::word::Side;
///
/// let mut block = [40_i8, 100]; // 2.5, 6.25
/// saturating_pairs(&Add, &mut block, &[24, 100]);
/// assert_eq!(block, [64, 127]); // 4.0, and 12.5 does not fit
/// ```
///
/// ```should_panic
/// # use zugyelmas::block::{
/// #     Abs, Add, Each, Mul, MulAdd, Neg, Pairs, Scale, checked_each, checked_pairs, dot_of, saturating_each,
/// #     saturating_pairs, wrapping_each, wrapping_pairs,
/// # };
/// # use zugyelmas::word::Side;
/// # std::panic::set_hook(Box::new(|_| {}));
/// saturating_pairs(&Add, &mut [16_i8, 32], &[1]); // the lengths differ
/// ```
///
/// ```should_panic
/// # use zugyelmas::block::{
/// #     Abs, Add, Each, Mul, MulAdd, Neg, Pairs, Scale, checked_each, checked_pairs, dot_of, saturating_each,
/// #     saturating_pairs, wrapping_each, wrapping_pairs,
/// # };
/// # use zugyelmas::word::Side;
/// # std::panic::set_hook(Box::new(|_| {}));
/// // the fraction is above the width
/// saturating_pairs(&Mul { frac: 9 }, &mut [16_i8, 32], &[1, 2]);
/// ```
///
/// # Panics
///
/// Panics unless the operation is ready, and both blocks have the same length.
///
/// # Proved
///
/// ```text
/// requires ready { O.pairs_ready operation.now }
/// requires lengths { length block.old ≡ length others.now }
/// ensures { map T.value block.new
///     ≡ saturating_block T.SIGNED T.BITS (of_pairs (O.exact operation.now) (map T.value block.old) (map T.value others.now)) }
/// ```
///
/// Definitions: [`of_pairs`], [`saturating_block`].
///
/// [`of_pairs`]: crate::definitions::block_blocks
/// [`saturating_block`]: crate::definitions::block_blocks
#[track_caller]
pub fn saturating_pairs<T: Word, O: Pairs<T>>(operation: &O, block: &mut [T], others: &[T]) {
    assert!(operation.is_ready(), "precondition: the operation is ready");
    assert!(
        block.len() == others.len(),
        "precondition: both blocks have the same length"
    );
    if operation.is_by_fours() {
        saturating_by_fours(operation, block, others);
    } else {
        saturating_singly(operation, block, others);
    }
}

/// Does what `saturating_pairs` does, number by number.
#[inline(always)]
fn saturating_singly<T: Word, O: Pairs<T>>(operation: &O, block: &mut [T], others: &[T]) {
    for at in 0..block.len() {
        block[at] = saturating_of(operation.outcome(block[at], others[at]));
    }
}

/// Does what `saturating_pairs` does, by four numbers at a time.
#[inline(always)]
fn saturating_by_fours<T: Word, O: Pairs<T>>(operation: &O, block: &mut [T], others: &[T]) {
    let mut at = 0;
    while block.len() - at >= 4 {
        saturating_singly(operation, &mut block[at..at + 4], &others[at..at + 4]);
        at += 4;
    }
    saturating_singly(operation, &mut block[at..], &others[at..]);
}

/// Replaces each number of the first block by the number of the word that differs from the exact result for it and the
/// number at the same place of the other block by a multiple of `2^n` units, where n is the width. Preconditions: the
/// operation is ready, and both blocks have the same length.
///
/// # Examples
///
/// ```
/// use zugyelmas::block::{
///     Abs, Add, Each, Mul, MulAdd, Neg, Pairs, Scale, checked_each, checked_pairs, dot_of, saturating_each,
///     saturating_pairs, wrapping_each, wrapping_pairs,
/// };
/// use zugyelmas::word::Side;
///
/// let mut block = [40_i8, 100]; // 2.5, 6.25
/// wrapping_pairs(&Add, &mut block, &[24, 100]);
/// assert_eq!(block, [64, -56]); // 12.5 does not fit, and wraps to -3.5
/// ```
///
/// ```should_panic
/// # use zugyelmas::block::{
/// #     Abs, Add, Each, Mul, MulAdd, Neg, Pairs, Scale, checked_each, checked_pairs, dot_of, saturating_each,
/// #     saturating_pairs, wrapping_each, wrapping_pairs,
/// # };
/// # use zugyelmas::word::Side;
/// # std::panic::set_hook(Box::new(|_| {}));
/// wrapping_pairs(&Add, &mut [16_i8, 32], &[1]); // the lengths differ
/// ```
///
/// ```should_panic
/// # use zugyelmas::block::{
/// #     Abs, Add, Each, Mul, MulAdd, Neg, Pairs, Scale, checked_each, checked_pairs, dot_of, saturating_each,
/// #     saturating_pairs, wrapping_each, wrapping_pairs,
/// # };
/// # use zugyelmas::word::Side;
/// # std::panic::set_hook(Box::new(|_| {}));
/// // the fraction is above the width
/// wrapping_pairs(&Mul { frac: 9 }, &mut [16_i8, 32], &[1, 2]);
/// ```
///
/// # Panics
///
/// Panics unless the operation is ready, and both blocks have the same length.
///
/// # Proved
///
/// ```text
/// requires ready { O.pairs_ready operation.now }
/// requires lengths { length block.old ≡ length others.now }
/// ensures { map T.value block.new
///     ≡ wrapping_block T.SIGNED T.BITS (of_pairs (O.exact operation.now) (map T.value block.old) (map T.value others.now)) }
/// ```
///
/// Definitions: [`of_pairs`], [`wrapping_block`].
///
/// [`of_pairs`]: crate::definitions::block_blocks
/// [`wrapping_block`]: crate::definitions::block_blocks
#[track_caller]
pub fn wrapping_pairs<T: Word, O: Pairs<T>>(operation: &O, block: &mut [T], others: &[T]) {
    assert!(operation.is_ready(), "precondition: the operation is ready");
    assert!(
        block.len() == others.len(),
        "precondition: both blocks have the same length"
    );
    if operation.is_by_fours() {
        wrapping_by_fours(operation, block, others);
    } else {
        wrapping_singly(operation, block, others);
    }
}

/// Does what `wrapping_pairs` does, number by number.
#[inline(always)]
fn wrapping_singly<T: Word, O: Pairs<T>>(operation: &O, block: &mut [T], others: &[T]) {
    for at in 0..block.len() {
        block[at] = operation.wrapped(block[at], others[at]);
    }
}

/// Does what `wrapping_pairs` does, by four numbers at a time.
#[inline(always)]
fn wrapping_by_fours<T: Word, O: Pairs<T>>(operation: &O, block: &mut [T], others: &[T]) {
    let mut at = 0;
    while block.len() - at >= 4 {
        wrapping_singly(operation, &mut block[at..at + 4], &others[at..at + 4]);
        at += 4;
    }
    wrapping_singly(operation, &mut block[at..], &others[at..]);
}

/// Replaces the numbers of the first block by the exact results for them and the numbers at the same places of the
/// other block, up to the first exact result that does not fit. Returns the index of that result, or `None` if all fit.
/// The number at that index and all after it are unchanged. Preconditions: the operation is ready, and both blocks have
/// the same length.
///
/// # Examples
///
/// ```
/// use zugyelmas::block::{
///     Abs, Add, Each, Mul, MulAdd, Neg, Pairs, Scale, checked_each, checked_pairs, dot_of, saturating_each,
///     saturating_pairs, wrapping_each, wrapping_pairs,
/// };
/// use zugyelmas::word::Side;
///
/// let mut block = [40_i8, 100]; // 2.5, 6.25
/// // 9.375 does not fit
/// assert_eq!(checked_pairs(&MulAdd { by: 8, frac: 4 }, &mut block, &[24, 100]), Some(1));
/// assert_eq!(block, [52, 100]); // 2.5 + 1.5 * 0.5 = 3.25
/// ```
///
/// ```should_panic
/// # use zugyelmas::block::{
/// #     Abs, Add, Each, Mul, MulAdd, Neg, Pairs, Scale, checked_each, checked_pairs, dot_of, saturating_each,
/// #     saturating_pairs, wrapping_each, wrapping_pairs,
/// # };
/// # use zugyelmas::word::Side;
/// # std::panic::set_hook(Box::new(|_| {}));
/// checked_pairs(&Add, &mut [16_i8, 32], &[1]); // the lengths differ
/// ```
///
/// ```should_panic
/// # use zugyelmas::block::{
/// #     Abs, Add, Each, Mul, MulAdd, Neg, Pairs, Scale, checked_each, checked_pairs, dot_of, saturating_each,
/// #     saturating_pairs, wrapping_each, wrapping_pairs,
/// # };
/// # use zugyelmas::word::Side;
/// # std::panic::set_hook(Box::new(|_| {}));
/// // the fraction is above the width
/// checked_pairs(&Mul { frac: 9 }, &mut [16_i8, 32], &[1, 2]);
/// ```
///
/// # Panics
///
/// Panics unless the operation is ready, and both blocks have the same length.
///
/// # Proved
///
/// ```text
/// requires ready { O.pairs_ready operation.now }
/// requires lengths { length block.old ≡ length others.now }
/// ensures place { result
///     ≡ misfit T.SIGNED T.BITS (of_pairs (O.exact operation.now) (map T.value block.old) (map T.value others.now)) }
/// ensures block { map T.value block.new
///     ≡ checked_block T.SIGNED T.BITS (of_pairs (O.exact operation.now) (map T.value block.old) (map T.value others.now)) (map T.value block.old) }
/// ```
///
/// Definitions: [`checked_block`], [`misfit`], [`of_pairs`].
///
/// [`checked_block`]: crate::definitions::block_blocks
/// [`misfit`]: crate::definitions::block_blocks
/// [`of_pairs`]: crate::definitions::block_blocks
#[track_caller]
pub fn checked_pairs<T: Word, O: Pairs<T>>(
    operation: &O,
    block: &mut [T],
    others: &[T],
) -> Option<usize> {
    assert!(operation.is_ready(), "precondition: the operation is ready");
    assert!(
        block.len() == others.len(),
        "precondition: both blocks have the same length"
    );
    if operation.is_tested_first() {
        checked_after_test(operation, block, others)
    } else {
        checked_singly(operation, block, others)
    }
}

/// Does what `checked_pairs` does, and writes each number before it looks at the next.
#[inline(always)]
fn checked_singly<T: Word, O: Pairs<T>>(
    operation: &O,
    block: &mut [T],
    others: &[T],
) -> Option<usize> {
    for at in 0..block.len() {
        match checked_of(operation.outcome(block[at], others[at])) {
            Some(number) => block[at] = number,
            None => return Some(at),
        }
    }
    None
}

/// Does what `checked_pairs` does, and writes all numbers after the tests.
#[inline(always)]
fn checked_after_test<T: Word, O: Pairs<T>>(
    operation: &O,
    block: &mut [T],
    others: &[T],
) -> Option<usize> {
    let fit = fitting_of(operation, block, others);
    wrapping_pairs(operation, &mut block[..fit], &others[..fit]);
    if fit == block.len() { None } else { Some(fit) }
}

/// Returns how many exact results at the front of two blocks fit. It tests 64 at once, since a loop that stops at none
/// of them takes many in one instruction. Preconditions: the operation is ready, and both blocks have the same length.
#[inline(always)]
fn fitting_of<T: Word, O: Pairs<T>>(operation: &O, block: &[T], others: &[T]) -> usize {
    let mut at = 0;
    while block.len() - at >= 64 && all_fit(operation, &block[at..at + 64], &others[at..at + 64]) {
        at += 64;
    }
    at + fitting_singly(operation, &block[at..], &others[at..])
}

/// Returns whether all exact results of two blocks fit. Preconditions: the operation is ready, and both blocks have the
/// same length.
#[inline(always)]
fn all_fit<T: Word, O: Pairs<T>>(operation: &O, block: &[T], others: &[T]) -> bool {
    let mut all = true;
    for at in 0..block.len() {
        all &= operation.fits(block[at], others[at]);
    }
    all
}

/// Does what `fitting_of` does, number by number.
#[inline]
fn fitting_singly<T: Word, O: Pairs<T>>(operation: &O, block: &[T], others: &[T]) -> usize {
    for at in 0..block.len() {
        if !fits_of(operation.outcome(block[at], others[at])) {
            return at;
        }
    }
    block.len()
}
