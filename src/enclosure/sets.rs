// Made by `make package` of crates/fixed_enclosure/src/sets.rt, which is proved: changes go there.

//! Enclosures as sets of numbers.

use crate::enclosure::enclosure::Enclosure;
use crate::enclosure::order::{greater, is_at_most, lesser};
use crate::num::Fixed;
use crate::word::{Ordered, RawWord};

impl<T: RawWord + Ordered, const F: u32> Enclosure<T, F> {
    /// Returns the enclosure of a single number.
    ///
    /// # Examples
    ///
    /// ```
    /// use zugyelmas::Enclosure;
    /// use zugyelmas::prelude::*;
    /// type Number = FixedI8<4>; // from -8 to 7.9375
    /// let number = |value: f64| Number::from_num(value);
    /// let enclosure = |low, high| Enclosure::new(number(low), number(high)).expect("ends in order");
    ///
    /// assert_eq!(Enclosure::point(number(1.5)), enclosure(1.5, 1.5));
    /// ```
    ///
    /// # Proved
    ///
    /// ```text
    /// ensures { result ≡ record { lo = number.bits; hi = number.bits } }
    /// ```
    #[must_use]
    pub fn point(number: Fixed<T, F>) -> Self {
        Self::from_ends(number.bits, number.bits)
    }

    /// Returns whether the number is in the enclosure.
    ///
    /// # Examples
    ///
    /// ```
    /// use zugyelmas::Enclosure;
    /// use zugyelmas::prelude::*;
    /// type Number = FixedI8<4>; // from -8 to 7.9375
    /// let number = |value: f64| Number::from_num(value);
    /// let enclosure = |low, high| Enclosure::new(number(low), number(high)).expect("ends in order");
    ///
    /// assert!(enclosure(1.0, 1.5).contains(number(1.5))); // the ends lie inside
    /// assert!(!enclosure(1.0, 1.5).contains(number(1.5625)));
    /// ```
    ///
    /// # Proved
    ///
    /// ```text
    /// ensures { IsTrue result ↔ Contains (ends_of T.value self) (T.value number.bits) }
    /// ```
    ///
    /// Definitions: [`ends_of`].
    ///
    /// [`ends_of`]: crate::definitions::interval_ends
    #[must_use]
    pub fn contains(self, number: Fixed<T, F>) -> bool {
        is_at_most(self.low().bits, number.bits) & is_at_most(number.bits, self.high().bits)
    }

    /// Returns whether each number of the other enclosure is in this one.
    ///
    /// # Examples
    ///
    /// ```
    /// use zugyelmas::Enclosure;
    /// use zugyelmas::prelude::*;
    /// type Number = FixedI8<4>; // from -8 to 7.9375
    /// let number = |value: f64| Number::from_num(value);
    /// let enclosure = |low, high| Enclosure::new(number(low), number(high)).expect("ends in order");
    ///
    /// assert!(enclosure(1.0, 2.0).contains_enclosure(enclosure(1.0, 1.5)));
    /// assert!(!enclosure(1.0, 2.0).contains_enclosure(enclosure(0.5, 1.5)));
    /// ```
    ///
    /// # Proved
    ///
    /// ```text
    /// ensures { IsTrue result ↔ Encloses (ends_of T.value self) (ends_of T.value other) }
    /// ```
    ///
    /// Definitions: [`ends_of`].
    ///
    /// [`ends_of`]: crate::definitions::interval_ends
    #[must_use]
    pub fn contains_enclosure(self, other: Self) -> bool {
        is_at_most(self.low().bits, other.low().bits)
            & is_at_most(other.high().bits, self.high().bits)
    }

    /// Returns the narrowest enclosure that contains both.
    ///
    /// # Examples
    ///
    /// ```
    /// use zugyelmas::Enclosure;
    /// use zugyelmas::prelude::*;
    /// type Number = FixedI8<4>; // from -8 to 7.9375
    /// let number = |value: f64| Number::from_num(value);
    /// let enclosure = |low, high| Enclosure::new(number(low), number(high)).expect("ends in order");
    ///
    /// assert_eq!(enclosure(1.0, 1.5).hull(enclosure(3.0, 4.0)), enclosure(1.0, 4.0));
    /// ```
    ///
    /// # Proved
    ///
    /// ```text
    /// ensures { ends_of T.value result ≡ hull_of (ends_of T.value self) (ends_of T.value other) }
    /// ```
    ///
    /// Definitions: [`ends_of`], [`hull_of`].
    ///
    /// [`ends_of`]: crate::definitions::interval_ends
    /// [`hull_of`]: crate::definitions::enclosure_sets
    #[must_use]
    pub fn hull(self, other: Self) -> Self {
        let low = lesser(self.low().bits, other.low().bits);
        let high = greater(self.high().bits, other.high().bits);
        Self::from_ends(low, high)
    }

    /// Returns the enclosure of the numbers that are in both, or `None` if there are none.
    ///
    /// # Examples
    ///
    /// ```
    /// use zugyelmas::Enclosure;
    /// use zugyelmas::prelude::*;
    /// type Number = FixedI8<4>; // from -8 to 7.9375
    /// let number = |value: f64| Number::from_num(value);
    /// let enclosure = |low, high| Enclosure::new(number(low), number(high)).expect("ends in order");
    ///
    /// assert_eq!(enclosure(1.0, 3.0).intersection(enclosure(2.0, 4.0)), Some(enclosure(2.0, 3.0)));
    /// assert_eq!(enclosure(1.0, 2.0).intersection(enclosure(2.0, 4.0)), Some(enclosure(2.0, 2.0)));
    /// // no number lies in both
    /// assert_eq!(enclosure(1.0, 1.5).intersection(enclosure(2.0, 4.0)), None);
    /// ```
    ///
    /// # Proved
    ///
    /// ```text
    /// ensures { option_map (ends_of T.value) result ≡ common_of (ends_of T.value self) (ends_of T.value other) }
    /// ```
    ///
    /// Definitions: [`ends_of`], [`common_of`].
    ///
    /// [`ends_of`]: crate::definitions::interval_ends
    /// [`common_of`]: crate::definitions::enclosure_sets
    #[must_use]
    pub fn intersection(self, other: Self) -> Option<Self> {
        let low = greater(self.low().bits, other.low().bits);
        let high = lesser(self.high().bits, other.high().bits);
        Self::new(Fixed { bits: low }, Fixed { bits: high })
    }
}
