// Made by `make package` of crates/fixed_num/src/counted.rt, which is proved: changes go there.

//! The square root, which counts its steps.

use crate::num::format::Fixed;
use crate::root::root;
use crate::word::{Digits, Ledger, RawWord, Steps, Word};

impl<T: Word, const F: u32> Fixed<T, F> {
    /// Returns the square root, rounded down. Preconditions: F is at most the width n, the number is not negative,
    /// and the root fits. The count of steps rises by at most `16 n + 32`. (`fixed` does not have this call.)
    ///
    /// # Examples
    ///
    /// ```
    /// use zugyelmas::prelude::*;
    /// type Number = FixedI8<4>; // from -8 to 7.9375
    /// let number = Number::from_num::<f64>;
    ///
    /// use zugyelmas::word::{Count, Steps};
    /// let mut steps = Steps::new(Count::new());
    /// assert_eq!(number(2.25).sqrt_counted(&mut steps), number(1.5));
    /// assert!(steps.ledger().count() <= 16 * 8 + 32);
    /// ```
    ///
    /// # Compile errors
    ///
    /// Compiles only if the fraction F is at most the width.
    ///
    /// # Panics
    ///
    /// Panics unless the number is not below 0.
    ///
    /// With debug assertions, panics unless the root fits. Without them, the result is wrapped.
    ///
    /// # Proved
    ///
    /// ```text
    /// requires fraction { F ≤ T.BITS }
    /// requires defined { pos 0 ≤ℤ T.value self.bits }
    /// requires fits { root_of (T.value self.bits) F ≤ℤ highest T.SIGNED T.BITS }
    /// ensures root { IsRoot (T.value self.bits) F (T.value result.bits) }
    /// ensures ticks { RisesAtMost (16 * T.BITS + 32) (L.count steps.old) (L.count steps.new) }
    /// ```
    ///
    /// Definitions: [`highest`], [`RisesAtMost`], [`root_of`].
    ///
    /// [`highest`]: crate::definitions::word_format
    /// [`RisesAtMost`]: crate::definitions::word_ticks
    /// [`root_of`]: crate::definitions::root_root
    #[track_caller]
    pub fn sqrt_counted<L: Ledger>(self, steps: &mut Steps<L>) -> Self
    where
        T::Unsigned: Digits<L>,
    {
        const {
            assert!(
                F <= T::BITS,
                "precondition: the fraction F is at most the width"
            )
        };
        assert!(
            !self.bits.is_below_zero(),
            "precondition: the number is not below 0"
        );
        debug_assert!(
            crate::kernel::sqrt_of(self.bits, F).side == crate::word::Side::Fits,
            "precondition: the root fits"
        );
        Fixed {
            bits: T::from_unsigned(root(self.bits.to_unsigned(), F, steps)),
        }
    }
}
