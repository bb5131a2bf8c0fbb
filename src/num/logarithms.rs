// Made by `make package` of crates/fixed_num/src/logarithms.rt, which is proved: changes go there.

//! Logarithms of numbers, rounded down to integers.

use crate::logs::{Base, frac_log10_part, frac_part, int_log10_part, int_part};
use crate::num::format::Fixed;
use crate::num::log_argument::{LogArgument, log_argument_of};
use crate::word::{Digits, Ledger, RawWord, Silent, Steps, Word};

/// Returns the logarithm of a positive number, rounded down.
fn log_of<L: Ledger, D: Digits<L>>(val: D, frac: u32, base: Base, steps: &mut Steps<L>) -> i32 {
    match log_argument_of(val, frac, steps) {
        LogArgument::Whole(whole) => int_part(whole, base, steps),
        LogArgument::Raised(raised) => frac_part(raised, base, steps),
    }
}

/// Returns the logarithm of a positive number to base 10, rounded down.
fn log10_of<L: Ledger, D: Digits<L>>(val: D, frac: u32, steps: &mut Steps<L>) -> i32 {
    match log_argument_of(val, frac, steps) {
        LogArgument::Whole(whole) => int_log10_part(whole, steps),
        LogArgument::Raised(raised) => frac_log10_part(raised, steps),
    }
}

/// Returns whether a word is positive.
fn is_above_zero<T: Word>(bits: T) -> bool {
    !bits.is_below_zero() && bits != T::ZERO
}

/// Returns a positive word as an unsigned word.
fn above_zero<T: Word>(bits: T) -> T::Unsigned {
    bits.to_unsigned()
}

impl<T: Word, const F: u32> Fixed<T, F> {
    /// Returns the logarithm to base 2, rounded down: the integer k with `2^k <= bits / 2^F < 2^(k+1)`.
    /// Preconditions: the number is positive, and F is at most the width.
    ///
    /// # Examples
    ///
    /// ```
    /// use zugyelmas::prelude::*;
    /// type Number = FixedI8<4>; // from -8 to 7.9375
    /// let number = Number::from_num::<f64>;
    ///
    /// assert_eq!(number(6.0).int_log2(), 2); // 4 <= 6 < 8
    /// assert_eq!(number(0.0625).int_log2(), -4);
    /// ```
    ///
    /// ```should_panic
    /// # use zugyelmas::prelude::*;
    /// # type Number = FixedI8<4>; // from -8 to 7.9375
    /// # let number = Number::from_num::<f64>;
    /// # std::panic::set_hook(Box::new(|_| {}));
    /// number(0.0).int_log2(); // 0 has no logarithm
    /// ```
    ///
    /// # Compile errors
    ///
    /// Compiles only if the fraction F is at most the width.
    ///
    /// # Panics
    ///
    /// Panics unless the number is above 0.
    ///
    /// # Proved
    ///
    /// ```text
    /// requires above_zero { pos 0 <ℤ T.value self.bits }
    /// requires fraction { F ≤ T.BITS }
    /// ensures { IsLog (nat_abs (T.value self.bits)) F 2 result }
    /// ```
    ///
    /// Definitions: [`IsLog`].
    ///
    /// [`IsLog`]: crate::definitions::logs_logarithm
    #[track_caller]
    #[must_use]
    pub fn int_log2(self) -> i32 {
        assert!(
            !self.bits.is_below_zero() && self.bits.magnitude() > 0,
            "precondition: the number is above 0"
        );
        const {
            assert!(
                F <= T::BITS,
                "precondition: the fraction F is at most the width"
            )
        };
        self.int_log(2)
    }

    /// Returns the logarithm to base 10, rounded down: the integer k with `10^k <= bits / 2^F < 10^(k+1)`.
    /// Preconditions: the number is positive, and F is at most the width.
    ///
    /// # Examples
    ///
    /// ```
    /// use zugyelmas::prelude::*;
    /// type Number = FixedI8<4>; // from -8 to 7.9375
    /// let number = Number::from_num::<f64>;
    ///
    /// assert_eq!(number(6.0).int_log10(), 0); // 1 <= 6 < 10
    /// assert_eq!(number(0.0625).int_log10(), -2); // 0.01 <= 0.0625 < 0.1
    /// ```
    ///
    /// ```should_panic
    /// # use zugyelmas::prelude::*;
    /// # type Number = FixedI8<4>; // from -8 to 7.9375
    /// # let number = Number::from_num::<f64>;
    /// # std::panic::set_hook(Box::new(|_| {}));
    /// number(-1.0).int_log10(); // -1 has no logarithm
    /// ```
    ///
    /// # Compile errors
    ///
    /// Compiles only if the fraction F is at most the width.
    ///
    /// # Panics
    ///
    /// Panics unless the number is above 0.
    ///
    /// # Proved
    ///
    /// ```text
    /// requires above_zero { pos 0 <ℤ T.value self.bits }
    /// requires fraction { F ≤ T.BITS }
    /// ensures { IsLog (nat_abs (T.value self.bits)) F 10 result }
    /// ```
    ///
    /// Definitions: [`IsLog`].
    ///
    /// [`IsLog`]: crate::definitions::logs_logarithm
    #[track_caller]
    #[must_use]
    pub fn int_log10(self) -> i32 {
        assert!(
            !self.bits.is_below_zero() && self.bits.magnitude() > 0,
            "precondition: the number is above 0"
        );
        const {
            assert!(
                F <= T::BITS,
                "precondition: the fraction F is at most the width"
            )
        };
        log10_of(above_zero(self.bits), F, &mut Steps::new(Silent::new()))
    }

    /// Returns the logarithm to a base, rounded down: the integer k with `base^k <= bits / 2^F < base^(k+1)`.
    /// Preconditions: the number is positive, F is at most the width, and the base is at least 2.
    ///
    /// # Examples
    ///
    /// ```
    /// use zugyelmas::prelude::*;
    /// type Number = FixedI8<4>; // from -8 to 7.9375
    /// let number = Number::from_num::<f64>;
    ///
    /// assert_eq!(number(6.0).int_log(3), 1); // 3 <= 6 < 9
    /// assert_eq!(number(0.25).int_log(3), -2); // 1/9 <= 1/4 < 1/3
    /// ```
    ///
    /// ```should_panic
    /// # use zugyelmas::prelude::*;
    /// # type Number = FixedI8<4>; // from -8 to 7.9375
    /// # let number = Number::from_num::<f64>;
    /// # std::panic::set_hook(Box::new(|_| {}));
    /// number(6.0).int_log(1); // a base is at least 2
    /// ```
    ///
    /// # Compile errors
    ///
    /// Compiles only if the fraction F is at most the width.
    ///
    /// # Panics
    ///
    /// Panics unless the number is above 0, and the base is at least 2.
    ///
    /// # Proved
    ///
    /// ```text
    /// requires above_zero { pos 0 <ℤ T.value self.bits }
    /// requires fraction { F ≤ T.BITS }
    /// requires base { 2 ≤ base }
    /// ensures { IsLog (nat_abs (T.value self.bits)) F base result }
    /// ```
    ///
    /// Definitions: [`IsLog`].
    ///
    /// [`IsLog`]: crate::definitions::logs_logarithm
    #[track_caller]
    #[must_use]
    pub fn int_log(self, base: u32) -> i32 {
        assert!(
            !self.bits.is_below_zero() && self.bits.magnitude() > 0,
            "precondition: the number is above 0"
        );
        const {
            assert!(
                F <= T::BITS,
                "precondition: the fraction F is at most the width"
            )
        };
        assert!(base >= 2, "precondition: the base is at least 2");
        self.int_log_counted(base, &mut Steps::new(Silent::new()))
    }

    /// Returns the same as `int_log`, and counts its steps. Preconditions: the number is positive, F is at most the
    /// width n, and the base is at least 2. The count of steps rises by at most `12 log2(n) + 16`. (`fixed` does not
    /// have this call.)
    ///
    /// # Examples
    ///
    /// ```
    /// use zugyelmas::prelude::*;
    /// type Number = FixedI8<4>; // from -8 to 7.9375
    /// let number = Number::from_num::<f64>;
    ///
    /// use zugyelmas::word::{Count, Steps};
    /// let mut steps = Steps::new(Count::new());
    /// assert_eq!(number(6.0).int_log_counted(3, &mut steps), 1); // 3 <= 6 < 9
    /// assert!(steps.ledger().count() <= 12 * 3 + 16);
    /// ```
    ///
    /// # Compile errors
    ///
    /// Compiles only if the fraction F is at most the width.
    ///
    /// # Panics
    ///
    /// Panics unless the number is above 0, and the base is at least 2.
    ///
    /// # Proved
    ///
    /// ```text
    /// requires above_zero { pos 0 <ℤ T.value self.bits }
    /// requires fraction { F ≤ T.BITS }
    /// requires base { 2 ≤ base }
    /// ensures value { IsLog (nat_abs (T.value self.bits)) F base result }
    /// ensures ticks { RisesAtMost
    ///     (12 * log2 T.BITS + 16) (L.count steps.old) (L.count steps.new) }
    /// ```
    ///
    /// Definitions: [`RisesAtMost`], [`IsLog`], [`log2`].
    ///
    /// [`RisesAtMost`]: crate::definitions::word_ticks
    /// [`IsLog`]: crate::definitions::logs_logarithm
    /// [`log2`]: crate::definitions::logs_logarithm
    #[track_caller]
    pub fn int_log_counted<L: Ledger>(self, base: u32, steps: &mut Steps<L>) -> i32
    where
        T::Unsigned: Digits<L>,
    {
        assert!(
            !self.bits.is_below_zero() && self.bits.magnitude() > 0,
            "precondition: the number is above 0"
        );
        const {
            assert!(
                F <= T::BITS,
                "precondition: the fraction F is at most the width"
            )
        };
        assert!(base >= 2, "precondition: the base is at least 2");
        match Base::new(base) {
            Some(base) => log_of(above_zero(self.bits), F, base, steps),
            None => unreachable!(),
        }
    }

    /// Returns the logarithm to base 2, rounded down, or `None` if the number is not positive. Precondition: F is at
    /// most the width.
    ///
    /// # Examples
    ///
    /// ```
    /// use zugyelmas::prelude::*;
    /// type Number = FixedI8<4>; // from -8 to 7.9375
    /// let number = Number::from_num::<f64>;
    ///
    /// assert_eq!(number(6.0).checked_int_log2(), Some(2)); // 4 <= 6 < 8
    /// assert_eq!(number(0.0).checked_int_log2(), None);
    /// ```
    ///
    /// # Compile errors
    ///
    /// Compiles only if the fraction F is at most the width.
    ///
    /// # Proved
    ///
    /// ```text
    /// requires { F ≤ T.BITS }
    /// ensures none { IsNone result ↔ (T.value self.bits ≤ℤ pos 0) }
    /// ensures value { IfSome result (λ k. IsLog (nat_abs (T.value self.bits)) F 2 k) }
    /// ```
    ///
    /// Definitions: [`IsLog`].
    ///
    /// [`IsLog`]: crate::definitions::logs_logarithm
    #[track_caller]
    #[must_use]
    pub fn checked_int_log2(self) -> Option<i32> {
        const {
            assert!(
                F <= T::BITS,
                "precondition: the fraction F is at most the width"
            )
        };
        if is_above_zero(self.bits) {
            Some(self.int_log2())
        } else {
            None
        }
    }

    /// Returns the logarithm to base 10, rounded down, or `None` if the number is not positive. Precondition: F is at
    /// most the width.
    ///
    /// # Examples
    ///
    /// ```
    /// use zugyelmas::prelude::*;
    /// type Number = FixedI8<4>; // from -8 to 7.9375
    /// let number = Number::from_num::<f64>;
    ///
    /// assert_eq!(number(0.0625).checked_int_log10(), Some(-2)); // 0.01 <= 0.0625 < 0.1
    /// assert_eq!(number(-1.0).checked_int_log10(), None);
    /// ```
    ///
    /// # Compile errors
    ///
    /// Compiles only if the fraction F is at most the width.
    ///
    /// # Proved
    ///
    /// ```text
    /// requires { F ≤ T.BITS }
    /// ensures none { IsNone result ↔ (T.value self.bits ≤ℤ pos 0) }
    /// ensures value { IfSome result (λ k. IsLog (nat_abs (T.value self.bits)) F 10 k) }
    /// ```
    ///
    /// Definitions: [`IsLog`].
    ///
    /// [`IsLog`]: crate::definitions::logs_logarithm
    #[track_caller]
    #[must_use]
    pub fn checked_int_log10(self) -> Option<i32> {
        const {
            assert!(
                F <= T::BITS,
                "precondition: the fraction F is at most the width"
            )
        };
        if is_above_zero(self.bits) {
            Some(self.int_log10())
        } else {
            None
        }
    }

    /// Returns the logarithm to a base, rounded down, or `None` if the number is not positive or the base is below 2.
    /// Precondition: F is at most the width.
    ///
    /// # Examples
    ///
    /// ```
    /// use zugyelmas::prelude::*;
    /// type Number = FixedI8<4>; // from -8 to 7.9375
    /// let number = Number::from_num::<f64>;
    ///
    /// assert_eq!(number(6.0).checked_int_log(3), Some(1)); // 3 <= 6 < 9
    /// assert_eq!(number(6.0).checked_int_log(1), None); // a base is at least 2
    /// assert_eq!(number(0.0).checked_int_log(3), None);
    /// ```
    ///
    /// # Compile errors
    ///
    /// Compiles only if the fraction F is at most the width.
    ///
    /// # Proved
    ///
    /// ```text
    /// requires { F ≤ T.BITS }
    /// ensures none { IsNone result ↔ ((T.value self.bits ≤ℤ pos 0) ⊎ (base < 2)) }
    /// ensures value { IfSome result (λ k. IsLog (nat_abs (T.value self.bits)) F base k) }
    /// ```
    ///
    /// Definitions: [`IsLog`].
    ///
    /// [`IsLog`]: crate::definitions::logs_logarithm
    #[track_caller]
    #[must_use]
    pub fn checked_int_log(self, base: u32) -> Option<i32> {
        const {
            assert!(
                F <= T::BITS,
                "precondition: the fraction F is at most the width"
            )
        };
        if is_above_zero(self.bits) && base >= 2 {
            Some(self.int_log(base))
        } else {
            None
        }
    }
}
