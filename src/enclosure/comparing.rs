// Made by `make package` of crates/fixed_enclosure/src/comparing.rt, which is proved: changes go there.

//! Comparisons of enclosures: of all their numbers, or of some.

use crate::enclosure::enclosure::Enclosure;
use crate::enclosure::order::{is_at_most, is_less};
use crate::word::{Ordered, RawWord};

impl<T: RawWord + Ordered, const F: u32> Enclosure<T, F> {
    /// Returns whether each number of this enclosure is less than each number of the other.
    ///
    /// # Examples
    ///
    /// ```
    /// use zugyelmas::Enclosure;
    /// use zugyelmas::prelude::*;
    /// type Number = FixedI8<4>; // from -8 to 7.9375
    /// let number = |value: f64| Number::from_num(value);
    /// let enclosure = |low, high| Enclosure::new(number(low), number(high)).expect("ends in order");
    ///
    /// assert!(enclosure(1.0, 1.5).certainly_lt(enclosure(2.0, 3.0)));
    /// assert!(!enclosure(1.0, 2.0).certainly_lt(enclosure(2.0, 3.0))); // both may be 2
    /// ```
    ///
    /// # Proved
    ///
    /// ```text
    /// ensures { IsTrue result ↔ ForAll (λ x y. x <ℤ y) (ends_of T.value self) (ends_of T.value other) }
    /// ```
    ///
    /// Definitions: [`ends_of`], [`ForAll`].
    ///
    /// [`ends_of`]: crate::definitions::interval_ends
    /// [`ForAll`]: crate::definitions::enclosure_sets
    #[must_use]
    pub fn certainly_lt(self, other: Self) -> bool {
        is_less(self.high().bits, other.low().bits)
    }

    /// Returns whether each number of this enclosure is at most each number of the other.
    ///
    /// # Examples
    ///
    /// ```
    /// use zugyelmas::Enclosure;
    /// use zugyelmas::prelude::*;
    /// type Number = FixedI8<4>; // from -8 to 7.9375
    /// let number = |value: f64| Number::from_num(value);
    /// let enclosure = |low, high| Enclosure::new(number(low), number(high)).expect("ends in order");
    ///
    /// assert!(enclosure(1.0, 2.0).certainly_le(enclosure(2.0, 3.0)));
    /// // one may be 2.5, and the other 2
    /// assert!(!enclosure(1.0, 2.5).certainly_le(enclosure(2.0, 3.0)));
    /// ```
    ///
    /// # Proved
    ///
    /// ```text
    /// ensures { IsTrue result ↔ ForAll (λ x y. x ≤ℤ y) (ends_of T.value self) (ends_of T.value other) }
    /// ```
    ///
    /// Definitions: [`ends_of`], [`ForAll`].
    ///
    /// [`ends_of`]: crate::definitions::interval_ends
    /// [`ForAll`]: crate::definitions::enclosure_sets
    #[must_use]
    pub fn certainly_le(self, other: Self) -> bool {
        is_at_most(self.high().bits, other.low().bits)
    }

    /// Returns whether each number of this enclosure equals each number of the other, so that both hold the same one
    /// number.
    ///
    /// # Examples
    ///
    /// ```
    /// use zugyelmas::Enclosure;
    /// use zugyelmas::prelude::*;
    /// type Number = FixedI8<4>; // from -8 to 7.9375
    /// let number = |value: f64| Number::from_num(value);
    /// let enclosure = |low, high| Enclosure::new(number(low), number(high)).expect("ends in order");
    ///
    /// assert!(enclosure(2.0, 2.0).certainly_eq(enclosure(2.0, 2.0)));
    /// // one may be 1, and the other 2
    /// assert!(!enclosure(1.0, 2.0).certainly_eq(enclosure(1.0, 2.0)));
    /// ```
    ///
    /// # Proved
    ///
    /// ```text
    /// ensures { IsTrue result ↔ ForAll (λ x y. x ≡ y) (ends_of T.value self) (ends_of T.value other) }
    /// ```
    ///
    /// Definitions: [`ends_of`], [`ForAll`].
    ///
    /// [`ends_of`]: crate::definitions::interval_ends
    /// [`ForAll`]: crate::definitions::enclosure_sets
    #[must_use]
    pub fn certainly_eq(self, other: Self) -> bool {
        is_at_most(self.high().bits, other.low().bits)
            & is_at_most(other.high().bits, self.low().bits)
    }

    /// Returns whether some number of this enclosure is less than some number of the other.
    ///
    /// # Examples
    ///
    /// ```
    /// use zugyelmas::Enclosure;
    /// use zugyelmas::prelude::*;
    /// type Number = FixedI8<4>; // from -8 to 7.9375
    /// let number = |value: f64| Number::from_num(value);
    /// let enclosure = |low, high| Enclosure::new(number(low), number(high)).expect("ends in order");
    ///
    /// // one may be 1, and the other 2
    /// assert!(enclosure(1.0, 2.0).possibly_lt(enclosure(1.0, 2.0)));
    /// assert!(!enclosure(2.0, 3.0).possibly_lt(enclosure(1.0, 2.0)));
    /// ```
    ///
    /// # Proved
    ///
    /// ```text
    /// ensures { IsTrue result ↔ ForSome (λ x y. x <ℤ y) (ends_of T.value self) (ends_of T.value other) }
    /// ```
    ///
    /// Definitions: [`ends_of`], [`ForSome`].
    ///
    /// [`ends_of`]: crate::definitions::interval_ends
    /// [`ForSome`]: crate::definitions::enclosure_sets
    #[must_use]
    pub fn possibly_lt(self, other: Self) -> bool {
        is_less(self.low().bits, other.high().bits)
    }

    /// Returns whether some number of this enclosure is at most some number of the other.
    ///
    /// # Examples
    ///
    /// ```
    /// use zugyelmas::Enclosure;
    /// use zugyelmas::prelude::*;
    /// type Number = FixedI8<4>; // from -8 to 7.9375
    /// let number = |value: f64| Number::from_num(value);
    /// let enclosure = |low, high| Enclosure::new(number(low), number(high)).expect("ends in order");
    ///
    /// assert!(enclosure(2.0, 3.0).possibly_le(enclosure(1.0, 2.0))); // both may be 2
    /// assert!(!enclosure(2.5, 3.0).possibly_le(enclosure(1.0, 2.0)));
    /// ```
    ///
    /// # Proved
    ///
    /// ```text
    /// ensures { IsTrue result ↔ ForSome (λ x y. x ≤ℤ y) (ends_of T.value self) (ends_of T.value other) }
    /// ```
    ///
    /// Definitions: [`ends_of`], [`ForSome`].
    ///
    /// [`ends_of`]: crate::definitions::interval_ends
    /// [`ForSome`]: crate::definitions::enclosure_sets
    #[must_use]
    pub fn possibly_le(self, other: Self) -> bool {
        is_at_most(self.low().bits, other.high().bits)
    }

    /// Returns whether some number is in both enclosures.
    ///
    /// # Examples
    ///
    /// ```
    /// use zugyelmas::Enclosure;
    /// use zugyelmas::prelude::*;
    /// type Number = FixedI8<4>; // from -8 to 7.9375
    /// let number = |value: f64| Number::from_num(value);
    /// let enclosure = |low, high| Enclosure::new(number(low), number(high)).expect("ends in order");
    ///
    /// assert!(enclosure(1.0, 2.0).possibly_eq(enclosure(2.0, 3.0))); // both may be 2
    /// assert!(!enclosure(1.0, 1.5).possibly_eq(enclosure(2.0, 3.0)));
    /// ```
    ///
    /// # Proved
    ///
    /// ```text
    /// ensures { IsTrue result ↔ ForSome (λ x y. x ≡ y) (ends_of T.value self) (ends_of T.value other) }
    /// ```
    ///
    /// Definitions: [`ends_of`], [`ForSome`].
    ///
    /// [`ends_of`]: crate::definitions::interval_ends
    /// [`ForSome`]: crate::definitions::enclosure_sets
    #[must_use]
    pub fn possibly_eq(self, other: Self) -> bool {
        is_at_most(self.low().bits, other.high().bits)
            & is_at_most(other.low().bits, self.high().bits)
    }
}
