// Made by `make package` of crates/fixed_interval/src/interval.rt, which is proved: changes go there.

//! An interval, by its two ends.

use crate::word::{Ordered, Outcome, RawWord, Side, Word};

/// All numbers from a low end up to a high end, both included. The ends are bits, and each call that uses their unit
/// takes the number of fraction bits. Contracts see the two words.
#[derive(Clone, Copy, PartialEq, Eq, Hash, Debug)]
pub struct Interval<T: Word> {
    lo: T,
    hi: T,
}

impl<T: Word> Interval<T> {
    /// Returns the interval from `lo` to `hi`, both included, or `None` if `lo` is above `hi`.
    ///
    /// # Examples
    ///
    /// ```
    /// use zugyelmas::Interval;
    ///
    /// assert!(Interval::new(16_i8, 24).is_some()); // from 1 to 1.5
    /// assert!(Interval::new(16_i8, 16).is_some()); // 1 alone
    /// assert!(Interval::new(24_i8, 16).is_none()); // the ends are not in order
    /// ```
    ///
    /// # Proved
    ///
    /// ```text
    /// ensures ends { MatchOption result (T.value hi <ℤ T.value lo)
    ///     (λ i. i ≡ record { lo = lo; hi = hi }) }
    /// ensures order { IfSome result (λ i. T.value i.lo ≤ℤ T.value i.hi) }
    /// ```
    #[must_use]
    pub fn new(lo: T, hi: T) -> Option<Interval<T>> {
        if is_at_most(lo, hi) {
            Some(Interval { lo, hi })
        } else {
            None
        }
    }

    /// Returns the interval from `lo` to `hi`, both included. Precondition: `lo` is at most `hi`.
    ///
    /// # Examples
    ///
    /// ```
    /// use zugyelmas::Interval;
    ///
    /// let interval = Interval::from_ends(16_i8, 24); // from 1 to 1.5
    /// assert_eq!((interval.lo(), interval.hi()), (16, 24));
    /// ```
    ///
    /// ```should_panic
    /// # use zugyelmas::Interval;
    /// # std::panic::set_hook(Box::new(|_| {}));
    /// Interval::from_ends(24_i8, 16); // the ends are not in order
    /// ```
    ///
    /// # Panics
    ///
    /// Panics unless `lo` is at most `hi`.
    ///
    /// # Proved
    ///
    /// ```text
    /// requires { T.value lo ≤ℤ T.value hi }
    /// ensures { result ≡ record { lo = lo; hi = hi } }
    /// ```
    #[track_caller]
    #[must_use]
    pub fn from_ends(lo: T, hi: T) -> Interval<T> {
        assert!(lo <= hi, "precondition: `lo` is at most `hi`");
        Interval { lo, hi }
    }

    /// Returns the interval from 0 to 0.
    pub(crate) fn zero() -> Interval<T> {
        Interval {
            lo: T::ZERO,
            hi: T::ZERO,
        }
    }

    /// Returns the low end, the bits of the least number.
    ///
    /// # Examples
    ///
    /// ```
    /// use zugyelmas::Interval;
    ///
    /// let interval = Interval::new(16_i8, 24).expect("ends in order");
    /// assert_eq!(interval.lo(), 16); // 1
    /// ```
    ///
    /// # Proved
    ///
    /// ```text
    /// ensures value { result ≡ self.now.lo }
    /// ensures order { T.value self.now.lo ≤ℤ T.value self.now.hi }
    /// ```
    #[must_use]
    pub fn lo(&self) -> T {
        self.lo
    }

    /// Returns the high end, the bits of the greatest number.
    ///
    /// # Examples
    ///
    /// ```
    /// use zugyelmas::Interval;
    ///
    /// let interval = Interval::new(16_i8, 24).expect("ends in order");
    /// assert_eq!(interval.hi(), 24); // 1.5
    /// ```
    ///
    /// # Proved
    ///
    /// ```text
    /// ensures value { result ≡ self.now.hi }
    /// ensures order { T.value self.now.lo ≤ℤ T.value self.now.hi }
    /// ```
    #[must_use]
    pub fn hi(&self) -> T {
        self.hi
    }
}

/// Returns whether the first word is at most the second.
#[inline]
pub(crate) fn is_at_most<T: Ordered>(a: T, b: T) -> bool {
    a <= b
}

/// Returns the interval between the numbers of two outcomes, or `None` if one of them does not fit.
pub(crate) fn between<T: Word>(low: Outcome<T>, high: Outcome<T>) -> Option<Interval<T>> {
    match (low.side, high.side) {
        (Side::Fits, Side::Fits) => Interval::new(low.wrapped, high.wrapped),
        _ => None,
    }
}
