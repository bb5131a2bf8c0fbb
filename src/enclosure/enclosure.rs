// Made by `make package` of crates/fixed_enclosure/src/enclosure.rt, which is proved: changes go there.

//! An enclosure, by its two ends.

use crate::enclosure::order::is_at_most;
use crate::interval::Interval;
use crate::num::Fixed;
use crate::word::{Ordered, RawWord, Word};

/// All numbers from a low end up to a high end, both included. Contracts see the bits of the two ends.
#[derive(Clone, Copy, PartialEq, Eq, Hash, Debug)]
pub struct Enclosure<T: RawWord, const F: u32> {
    low: T,
    high: T,
}

impl<T: RawWord + Ordered, const F: u32> Enclosure<T, F> {
    /// Returns the enclosure from `low` to `high`, both included, or `None` if `low` is above `high`.
    ///
    /// # Examples
    ///
    /// ```
    /// use zugyelmas::Enclosure;
    /// use zugyelmas::prelude::*;
    /// type Number = FixedI8<4>; // from -8 to 7.9375
    /// let number = |value: f64| Number::from_num(value);
    /// let enclosure = |low, high| Enclosure::new(number(low), number(high)).expect("ends in order");
    ///
    /// let made = Enclosure::new(number(1.0), number(1.5)).expect("ends in order");
    /// assert_eq!((made.low(), made.high()), (number(1.0), number(1.5)));
    /// // the ends are not in order
    /// assert_eq!(Enclosure::new(number(1.5), number(1.0)), None);
    /// ```
    ///
    /// # Proved
    ///
    /// ```text
    /// ensures { MatchOption result (T.value high.bits <ℤ T.value low.bits)
    ///     (λ e. e ≡ record { lo = low.bits; hi = high.bits }) }
    /// ```
    #[must_use]
    pub fn new(low: Fixed<T, F>, high: Fixed<T, F>) -> Option<Self> {
        if is_at_most(low.bits, high.bits) {
            Some(Self::from_ends(low.bits, high.bits))
        } else {
            None
        }
    }

    /// Returns the enclosure whose ends have these bits. Precondition: `low` is at most `high`.
    #[inline]
    pub(crate) fn from_ends(low: T, high: T) -> Self {
        Enclosure { low, high }
    }

    /// Returns the low end, the least number of the enclosure.
    ///
    /// # Examples
    ///
    /// ```
    /// use zugyelmas::Enclosure;
    /// use zugyelmas::prelude::*;
    /// type Number = FixedI8<4>; // from -8 to 7.9375
    /// let number = |value: f64| Number::from_num(value);
    /// let enclosure = |low, high| Enclosure::new(number(low), number(high)).expect("ends in order");
    ///
    /// assert_eq!(enclosure(1.0, 1.5).low(), number(1.0));
    /// ```
    ///
    /// # Proved
    ///
    /// ```text
    /// ensures value { result.bits ≡ self.lo }
    /// ensures order { T.value self.lo ≤ℤ T.value self.hi }
    /// ```
    #[must_use]
    pub fn low(self) -> Fixed<T, F> {
        Fixed { bits: self.low }
    }

    /// Returns the high end, the greatest number of the enclosure.
    ///
    /// # Examples
    ///
    /// ```
    /// use zugyelmas::Enclosure;
    /// use zugyelmas::prelude::*;
    /// type Number = FixedI8<4>; // from -8 to 7.9375
    /// let number = |value: f64| Number::from_num(value);
    /// let enclosure = |low, high| Enclosure::new(number(low), number(high)).expect("ends in order");
    ///
    /// assert_eq!(enclosure(1.0, 1.5).high(), number(1.5));
    /// ```
    ///
    /// # Proved
    ///
    /// ```text
    /// ensures value { result.bits ≡ self.hi }
    /// ensures order { T.value self.lo ≤ℤ T.value self.hi }
    /// ```
    #[must_use]
    pub fn high(self) -> Fixed<T, F> {
        Fixed { bits: self.high }
    }
}

impl<T: Word, const F: u32> Enclosure<T, F> {
    /// Returns the interval of the ends' bits.
    ///
    /// # Examples
    ///
    /// ```
    /// use zugyelmas::Enclosure;
    /// use zugyelmas::prelude::*;
    /// type Number = FixedI8<4>; // from -8 to 7.9375
    /// let number = |value: f64| Number::from_num(value);
    /// let enclosure = |low, high| Enclosure::new(number(low), number(high)).expect("ends in order");
    ///
    /// let interval = enclosure(1.0, 1.5).to_interval();
    /// assert_eq!((interval.lo(), interval.hi()), (16, 24)); // the bits of 1 and 1.5
    /// ```
    ///
    /// # Proved
    ///
    /// ```text
    /// ensures { result ≡ self }
    /// ```
    #[must_use]
    pub fn to_interval(self) -> Interval<T> {
        Interval::from_ends(self.low, self.high)
    }

    /// Returns the enclosure whose ends have the bits of the interval's.
    ///
    /// # Examples
    ///
    /// ```
    /// use zugyelmas::Enclosure;
    /// use zugyelmas::prelude::*;
    /// type Number = FixedI8<4>; // from -8 to 7.9375
    /// let number = |value: f64| Number::from_num(value);
    /// let enclosure = |low, high| Enclosure::new(number(low), number(high)).expect("ends in order");
    ///
    /// use zugyelmas::Interval;
    /// let made = Enclosure::<i8, 4>::from_interval(Interval::from_ends(16, 24));
    /// assert_eq!(made, enclosure(1.0, 1.5));
    /// ```
    ///
    /// # Proved
    ///
    /// ```text
    /// ensures { result ≡ interval }
    /// ```
    #[must_use]
    pub fn from_interval(interval: Interval<T>) -> Self {
        Self::from_ends(interval.lo(), interval.hi())
    }
}

/// Returns the enclosure of an interval, if there is one.
pub(crate) fn enclosed<T: Word, const F: u32>(
    interval: Option<Interval<T>>,
) -> Option<Enclosure<T, F>> {
    match interval {
        Some(interval) => Some(Enclosure::from_interval(interval)),
        None => None,
    }
}
