// Made by `make package` of crates/fixed_block/src/each.rt, which is proved: changes go there.

//! Loops over one block.

use crate::word::{Outcome, Word, checked_of, nearest_of, overflowing_of};

/// An operation on one number, with what it needs besides the number, such as a factor.
pub trait Each<T: Word> {
    /// Returns whether the operation is ready: whether it has what it requires.
    ///
    /// # Examples
    ///
    /// ```
    /// use zugyelmas::block::{
    ///     Abs, Add, Each, Mul, MulAdd, Neg, Pairs, Scale, checked_each, checked_pairs, dot_of, saturating_each,
    ///     saturating_pairs, wrapping_each, wrapping_pairs,
    /// };
    /// use zugyelmas::word::Side;
    ///
    /// let half = Scale { by: 8_i8, frac: 4 }; // 0.5
    /// assert!(half.is_ready());
    /// // the fraction is above the width
    /// assert!(!Each::<i8>::is_ready(&Scale { by: 8_i8, frac: 9 }));
    /// ```
    ///
    /// # Proved
    ///
    /// ```text
    /// ensures { IsTrue result ↔ each_ready self.now }
    /// ```
    #[must_use]
    fn is_ready(&self) -> bool;

    /// Returns the outcome that stands for the exact result. Precondition: the operation is ready.
    ///
    /// # Examples
    ///
    /// ```
    /// use zugyelmas::block::{
    ///     Abs, Add, Each, Mul, MulAdd, Neg, Pairs, Scale, checked_each, checked_pairs, dot_of, saturating_each,
    ///     saturating_pairs, wrapping_each, wrapping_pairs,
    /// };
    /// use zugyelmas::word::Side;
    ///
    /// let half = Scale { by: 8_i8, frac: 4 }; // 0.5
    /// assert_eq!(half.outcome(40).wrapped, 20); // 2.5, 1.25
    /// assert_eq!(Each::<i8>::outcome(&Neg, -128).side, Side::Above); // 8.0 does not fit
    /// ```
    ///
    /// # Panics
    ///
    /// Panics unless the operation is ready.
    ///
    /// # Proved
    ///
    /// ```text
    /// requires { each_ready self.now }
    /// ensures { StandsFor T.value T.SIGNED T.BITS (exact self.now (T.value x)) result }
    /// ```
    #[must_use]
    fn outcome(&self, x: T) -> Outcome<T>;

    /// Returns whether checked loops are faster where they test many numbers before they write them. The answer changes
    /// nothing else.
    ///
    /// # Examples
    ///
    /// ```
    /// use zugyelmas::block::{
    ///     Abs, Add, Each, Mul, MulAdd, Neg, Pairs, Scale, checked_each, checked_pairs, dot_of, saturating_each,
    ///     saturating_pairs, wrapping_each, wrapping_pairs,
    /// };
    /// use zugyelmas::word::Side;
    ///
    /// assert!(Each::<i8>::is_tested_first(&Neg)); // 16 of 8 bits in one instruction
    /// assert!(!Each::<i64>::is_tested_first(&Neg));
    /// ```
    #[inline(always)]
    #[must_use]
    fn is_tested_first(&self) -> bool {
        T::BITS <= 16
    }

    /// Returns whether loops that write every number are faster by four numbers at a time. The answer changes nothing
    /// else.
    ///
    /// # Examples
    ///
    /// ```
    /// use zugyelmas::block::{
    ///     Abs, Add, Each, Mul, MulAdd, Neg, Pairs, Scale, checked_each, checked_pairs, dot_of, saturating_each,
    ///     saturating_pairs, wrapping_each, wrapping_pairs,
    /// };
    /// use zugyelmas::word::Side;
    ///
    /// assert!(Each::<i64>::is_by_fours(&Scale { by: 3, frac: 4 }));
    /// assert!(!Each::<i64>::is_by_fours(&Neg)); // two of 64 bits in one instruction
    /// ```
    #[inline(always)]
    #[must_use]
    fn is_by_fours(&self) -> bool {
        false
    }

    /// Returns the number of the word that differs from the exact result by a multiple of `2^n` units, where n is the
    /// width. Precondition: the operation is ready.
    ///
    /// # Examples
    ///
    /// ```
    /// use zugyelmas::block::{
    ///     Abs, Add, Each, Mul, MulAdd, Neg, Pairs, Scale, checked_each, checked_pairs, dot_of, saturating_each,
    ///     saturating_pairs, wrapping_each, wrapping_pairs,
    /// };
    /// use zugyelmas::word::Side;
    ///
    /// let half = Scale { by: 8_i8, frac: 4 }; // 0.5
    /// assert_eq!(half.wrapped(40), 20); // 2.5, 1.25
    /// assert_eq!(Each::<i8>::wrapped(&Neg, -128), -128); // 8.0 does not fit
    /// ```
    ///
    /// # Panics
    ///
    /// Panics unless the operation is ready.
    ///
    /// # Proved
    ///
    /// ```text
    /// requires { each_ready self.now }
    /// ensures { T.value result ≡ wrap T.SIGNED T.BITS (exact self.now (T.value x)) }
    /// ```
    ///
    /// Definitions: [`wrap`].
    ///
    /// [`wrap`]: crate::definitions::word_format
    #[inline(always)]
    #[track_caller]
    #[must_use]
    fn wrapped(&self, x: T) -> T {
        assert!(
            crate::block::Each::<T>::is_ready(self),
            "precondition: the operation is ready"
        );
        self.outcome(x).wrapped
    }

    /// Returns the number of the word that is nearest to the exact result. Precondition: the operation is ready.
    ///
    /// # Examples
    ///
    /// ```
    /// use zugyelmas::block::{
    ///     Abs, Add, Each, Mul, MulAdd, Neg, Pairs, Scale, checked_each, checked_pairs, dot_of, saturating_each,
    ///     saturating_pairs, wrapping_each, wrapping_pairs,
    /// };
    /// use zugyelmas::word::Side;
    ///
    /// let half = Scale { by: 8_i8, frac: 4 }; // 0.5
    /// assert_eq!(half.nearest(40), 20); // 2.5, 1.25
    /// assert_eq!(Each::<i8>::nearest(&Neg, -128), 127); // 8.0 does not fit
    /// ```
    ///
    /// # Panics
    ///
    /// Panics unless the operation is ready.
    ///
    /// # Proved
    ///
    /// ```text
    /// requires { each_ready self.now }
    /// ensures { T.value result ≡ clamp T.SIGNED T.BITS (exact self.now (T.value x)) }
    /// ```
    ///
    /// Definitions: [`clamp`].
    ///
    /// [`clamp`]: crate::definitions::word_format
    #[inline(always)]
    #[track_caller]
    #[must_use]
    fn nearest(&self, x: T) -> T {
        assert!(
            crate::block::Each::<T>::is_ready(self),
            "precondition: the operation is ready"
        );
        nearest_of(self.outcome(x))
    }

    /// Returns whether the exact results of all numbers of a block fit, from the outcome of each. Precondition: the
    /// operation is ready.
    ///
    /// # Examples
    ///
    /// ```
    /// use zugyelmas::block::{
    ///     Abs, Add, Each, Mul, MulAdd, Neg, Pairs, Scale, checked_each, checked_pairs, dot_of, saturating_each,
    ///     saturating_pairs, wrapping_each, wrapping_pairs,
    /// };
    /// use zugyelmas::word::Side;
    ///
    /// let twice = Scale { by: 32_i8, frac: 4 }; // 2.0
    /// assert!(twice.all_fit_singly(&[40, 63])); // 2.5, 3.9375
    /// assert!(!twice.all_fit_singly(&[40, 64])); // 8.0 does not fit
    /// ```
    ///
    /// # Panics
    ///
    /// Panics unless the operation is ready.
    ///
    /// # Proved
    ///
    /// ```text
    /// requires { each_ready self.now }
    /// ensures { result ≡ list_all (fits T.SIGNED T.BITS) (map (exact self.now) (map T.value block.now)) }
    /// ```
    ///
    /// Definitions: [`fits`].
    ///
    /// [`fits`]: crate::definitions::word_format
    #[inline(always)]
    #[track_caller]
    #[must_use]
    fn all_fit_singly(&self, block: &[T]) -> bool {
        assert!(
            crate::block::Each::<T>::is_ready(self),
            "precondition: the operation is ready"
        );
        let mut all = true;
        for x in block {
            all &= fits_of(self.outcome(*x));
        }
        all
    }

    /// Returns whether the exact results of all numbers of a block fit. Preconditions: the operation is ready, and the
    /// block has at most 64 numbers.
    ///
    /// # Examples
    ///
    /// ```
    /// use zugyelmas::block::{
    ///     Abs, Add, Each, Mul, MulAdd, Neg, Pairs, Scale, checked_each, checked_pairs, dot_of, saturating_each,
    ///     saturating_pairs, wrapping_each, wrapping_pairs,
    /// };
    /// use zugyelmas::word::Side;
    ///
    /// let twice = Scale { by: 32_i8, frac: 4 }; // 2.0
    /// assert!(twice.all_fit(&[40, 63])); // 2.5, 3.9375
    /// assert!(!twice.all_fit(&[40, 64])); // 8.0 does not fit
    /// ```
    ///
    /// ```should_panic
    /// # use zugyelmas::block::{
    /// #     Abs, Add, Each, Mul, MulAdd, Neg, Pairs, Scale, checked_each, checked_pairs, dot_of, saturating_each,
    /// #     saturating_pairs, wrapping_each, wrapping_pairs,
    /// # };
    /// # use zugyelmas::word::Side;
    /// # std::panic::set_hook(Box::new(|_| {}));
    /// Each::<i8>::all_fit(&Neg, &[0; 65]); // more than 64 numbers
    /// ```
    ///
    /// # Panics
    ///
    /// Panics unless the operation is ready, and the block has at most 64 numbers.
    ///
    /// # Proved
    ///
    /// ```text
    /// requires ready { each_ready self.now }
    /// requires few { length block.now ≤ 64 }
    /// ensures { result ≡ list_all (fits T.SIGNED T.BITS) (map (exact self.now) (map T.value block.now)) }
    /// ```
    ///
    /// Definitions: [`fits`].
    ///
    /// [`fits`]: crate::definitions::word_format
    #[inline(always)]
    #[track_caller]
    #[must_use]
    fn all_fit(&self, block: &[T]) -> bool {
        assert!(
            crate::block::Each::<T>::is_ready(self),
            "precondition: the operation is ready"
        );
        assert!(
            block.len() <= 64,
            "precondition: the block has at most 64 numbers"
        );
        self.all_fit_singly(block)
    }
}

/// Replaces each number by the number of the word that is nearest to the exact result. Precondition: the operation is
/// ready.
///
/// # Examples
///
/// ```
/// use zugyelmas::block::{
///     Abs, Add, Each, Mul, MulAdd, Neg, Pairs, Scale, checked_each, checked_pairs, dot_of, saturating_each,
///     saturating_pairs, wrapping_each, wrapping_pairs,
/// };
/// use zugyelmas::word::Side;
///
/// let mut block = [40_i8, -128, 127]; // 2.5, -8.0, 7.9375
/// saturating_each(&Abs, &mut block);
/// assert_eq!(block, [40, 127, 127]); // 8.0 does not fit
/// ```
///
/// ```should_panic
/// # use zugyelmas::block::{
/// #     Abs, Add, Each, Mul, MulAdd, Neg, Pairs, Scale, checked_each, checked_pairs, dot_of, saturating_each,
/// #     saturating_pairs, wrapping_each, wrapping_pairs,
/// # };
/// # use zugyelmas::word::Side;
/// # std::panic::set_hook(Box::new(|_| {}));
/// // the fraction is above the width
/// saturating_each(&Scale { by: 24_i8, frac: 9 }, &mut [16]);
/// ```
///
/// # Panics
///
/// Panics unless the operation is ready.
///
/// # Proved
///
/// ```text
/// requires { O.each_ready operation.now }
/// ensures { map T.value block.new
///     ≡ saturating_block T.SIGNED T.BITS (map (O.exact operation.now) (map T.value block.old)) }
/// ```
///
/// Definitions: [`saturating_block`].
///
/// [`saturating_block`]: crate::definitions::block_blocks
#[track_caller]
pub fn saturating_each<T: Word, O: Each<T>>(operation: &O, block: &mut [T]) {
    assert!(operation.is_ready(), "precondition: the operation is ready");
    if operation.is_by_fours() {
        saturating_by_fours(operation, block);
    } else {
        saturating_singly(operation, block);
    }
}

/// Does what `saturating_each` does, number by number.
#[inline(always)]
fn saturating_singly<T: Word, O: Each<T>>(operation: &O, block: &mut [T]) {
    for item in block.iter_mut() {
        *item = operation.nearest(*item);
    }
}

/// Does what `saturating_each` does, by four numbers at a time.
#[inline(always)]
fn saturating_by_fours<T: Word, O: Each<T>>(operation: &O, block: &mut [T]) {
    let mut at = 0;
    while block.len() - at >= 4 {
        saturating_singly(operation, &mut block[at..at + 4]);
        at += 4;
    }
    saturating_singly(operation, &mut block[at..]);
}

/// Replaces each number by the number of the word that differs from the exact result by a multiple of `2^n` units,
/// where n is the width. Precondition: the operation is ready.
///
/// # Examples
///
/// ```
/// use zugyelmas::block::{
///     Abs, Add, Each, Mul, MulAdd, Neg, Pairs, Scale, checked_each, checked_pairs, dot_of, saturating_each,
///     saturating_pairs, wrapping_each, wrapping_pairs,
/// };
/// use zugyelmas::word::Side;
///
/// let mut block = [40_i8, -128, 127]; // 2.5, -8.0, 7.9375
/// wrapping_each(&Neg, &mut block);
/// assert_eq!(block, [-40, -128, -127]); // 8.0 does not fit
/// ```
///
/// ```should_panic
/// # use zugyelmas::block::{
/// #     Abs, Add, Each, Mul, MulAdd, Neg, Pairs, Scale, checked_each, checked_pairs, dot_of, saturating_each,
/// #     saturating_pairs, wrapping_each, wrapping_pairs,
/// # };
/// # use zugyelmas::word::Side;
/// # std::panic::set_hook(Box::new(|_| {}));
/// // the fraction is above the width
/// wrapping_each(&Scale { by: 24_i8, frac: 9 }, &mut [16]);
/// ```
///
/// # Panics
///
/// Panics unless the operation is ready.
///
/// # Proved
///
/// ```text
/// requires { O.each_ready operation.now }
/// ensures { map T.value block.new
///     ≡ wrapping_block T.SIGNED T.BITS (map (O.exact operation.now) (map T.value block.old)) }
/// ```
///
/// Definitions: [`wrapping_block`].
///
/// [`wrapping_block`]: crate::definitions::block_blocks
#[track_caller]
pub fn wrapping_each<T: Word, O: Each<T>>(operation: &O, block: &mut [T]) {
    assert!(operation.is_ready(), "precondition: the operation is ready");
    if operation.is_by_fours() {
        wrapping_by_fours(operation, block);
    } else {
        wrapping_singly(operation, block);
    }
}

/// Does what `wrapping_each` does, number by number.
#[inline(always)]
fn wrapping_singly<T: Word, O: Each<T>>(operation: &O, block: &mut [T]) {
    for item in block.iter_mut() {
        *item = operation.wrapped(*item);
    }
}

/// Does what `wrapping_each` does, by four numbers at a time.
#[inline(always)]
fn wrapping_by_fours<T: Word, O: Each<T>>(operation: &O, block: &mut [T]) {
    let mut at = 0;
    while block.len() - at >= 4 {
        wrapping_singly(operation, &mut block[at..at + 4]);
        at += 4;
    }
    wrapping_singly(operation, &mut block[at..]);
}

/// Replaces each number by the exact result, up to the first number whose exact result does not fit, and returns the
/// index of that number, or `None` if there is none. That number and all after it are unchanged. Precondition: the
/// operation is ready.
///
/// # Examples
///
/// ```
/// use zugyelmas::block::{
///     Abs, Add, Each, Mul, MulAdd, Neg, Pairs, Scale, checked_each, checked_pairs, dot_of, saturating_each,
///     saturating_pairs, wrapping_each, wrapping_pairs,
/// };
/// use zugyelmas::word::Side;
///
/// let mut block = [40_i8, -128, 127]; // 2.5, -8.0, 7.9375
/// assert_eq!(checked_each(&Neg, &mut block), Some(1)); // 8.0 does not fit
/// assert_eq!(block, [-40, -128, 127]); // written up to there
/// assert_eq!(checked_each(&Scale { by: 8, frac: 4 }, &mut block), None);
/// assert_eq!(block, [-20, -64, 63]); // halves, rounded down
/// ```
///
/// ```should_panic
/// # use zugyelmas::block::{
/// #     Abs, Add, Each, Mul, MulAdd, Neg, Pairs, Scale, checked_each, checked_pairs, dot_of, saturating_each,
/// #     saturating_pairs, wrapping_each, wrapping_pairs,
/// # };
/// # use zugyelmas::word::Side;
/// # std::panic::set_hook(Box::new(|_| {}));
/// // the fraction is above the width
/// checked_each(&Scale { by: 24_i8, frac: 9 }, &mut [16]);
/// ```
///
/// # Panics
///
/// Panics unless the operation is ready.
///
/// # Proved
///
/// ```text
/// requires { O.each_ready operation.now }
/// ensures place { result ≡ misfit T.SIGNED T.BITS (map (O.exact operation.now) (map T.value block.old)) }
/// ensures block { map T.value block.new
///     ≡ checked_block T.SIGNED T.BITS (map (O.exact operation.now) (map T.value block.old)) (map T.value block.old) }
/// ```
///
/// Definitions: [`checked_block`], [`misfit`].
///
/// [`checked_block`]: crate::definitions::block_blocks
/// [`misfit`]: crate::definitions::block_blocks
#[track_caller]
pub fn checked_each<T: Word, O: Each<T>>(operation: &O, block: &mut [T]) -> Option<usize> {
    assert!(operation.is_ready(), "precondition: the operation is ready");
    if operation.is_tested_first() {
        checked_after_test(operation, block)
    } else {
        checked_singly(operation, block)
    }
}

/// Does what `checked_each` does, and writes each number before it looks at the next.
#[inline(always)]
fn checked_singly<T: Word, O: Each<T>>(operation: &O, block: &mut [T]) -> Option<usize> {
    for at in 0..block.len() {
        match checked_of(operation.outcome(block[at])) {
            Some(number) => block[at] = number,
            None => return Some(at),
        }
    }
    None
}

/// Does what `checked_each` does, and writes all numbers after the tests.
#[inline(always)]
fn checked_after_test<T: Word, O: Each<T>>(operation: &O, block: &mut [T]) -> Option<usize> {
    let fit = fitting_of(operation, block);
    wrapping_each(operation, &mut block[..fit]);
    if fit == block.len() { None } else { Some(fit) }
}

/// Returns how many exact results at the front of a block fit. It tests 64 numbers at once, since a loop that stops at
/// none of them takes many in one instruction. Precondition: the operation is ready.
#[inline(always)]
fn fitting_of<T: Word, O: Each<T>>(operation: &O, block: &[T]) -> usize {
    let mut at = 0;
    while block.len() - at >= 64 && operation.all_fit(&block[at..at + 64]) {
        at += 64;
    }
    at + fitting_singly(operation, &block[at..])
}

/// Does what `fitting_of` does, number by number.
#[inline]
fn fitting_singly<T: Word, O: Each<T>>(operation: &O, block: &[T]) -> usize {
    for at in 0..block.len() {
        if !fits_of(operation.outcome(block[at])) {
            return at;
        }
    }
    block.len()
}

/// Returns whether the exact result of an outcome fits.
#[inline(always)]
pub(crate) fn fits_of<T: Word>(outcome: Outcome<T>) -> bool {
    !overflowing_of(outcome).1
}
