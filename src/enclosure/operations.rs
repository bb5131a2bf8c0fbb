// Made by `make package` of crates/fixed_enclosure/src/operations.rt, which is proved: changes go there.

//! Operations on enclosures. They return `None` if an end does not fit or the operation is undefined.

use crate::enclosure::enclosure::{Enclosure, enclosed};
use crate::interval::{abs_in, add_in, div_in, mul_in, neg_in, sqrt_in, square_in, sub_in};
use crate::word::Word;

impl<T: Word, const F: u32> Enclosure<T, F> {
    /// Returns the enclosure of the sums, or `None` if an end does not fit.
    ///
    /// # Examples
    ///
    /// ```
    /// use zugyelmas::Enclosure;
    /// use zugyelmas::prelude::*;
    /// type Number = FixedI8<4>; // from -8 to 7.9375
    /// let number = |value: f64| Number::from_num(value);
    /// let enclosure = |low, high| Enclosure::new(number(low), number(high)).expect("ends in order");
    ///
    /// assert_eq!(enclosure(1.0, 1.5).checked_add(enclosure(-2.0, 3.0)), Some(enclosure(-1.0, 4.5)));
    /// // 8.5 does not fit
    /// assert_eq!(enclosure(1.0, 1.5).checked_add(enclosure(0.0, 7.0)), None);
    /// ```
    ///
    /// # Proved
    ///
    /// ```text
    /// ensures ends { option_map (ends_of T.value) result ≡ fitting T.SIGNED T.BITS (sum_ends (ends_of T.value self) (ends_of T.value other)) }
    /// ensures holds { IfSome result (λ e. HoldsSums (ends_of T.value self) (ends_of T.value other) (ends_of T.value e)) }
    /// ```
    ///
    /// Definitions: [`ends_of`], [`fitting`], [`sum_ends`], [`HoldsSums`].
    ///
    /// [`ends_of`]: crate::definitions::interval_ends
    /// [`fitting`]: crate::definitions::interval_ends
    /// [`sum_ends`]: crate::definitions::interval_ends
    /// [`HoldsSums`]: crate::definitions::interval_containment
    #[must_use]
    pub fn checked_add(self, other: Self) -> Option<Self> {
        enclosed(add_in(&self.to_interval(), &other.to_interval()))
    }

    /// Returns the enclosure of the differences, or `None` if an end does not fit.
    ///
    /// # Examples
    ///
    /// ```
    /// use zugyelmas::Enclosure;
    /// use zugyelmas::prelude::*;
    /// type Number = FixedI8<4>; // from -8 to 7.9375
    /// let number = |value: f64| Number::from_num(value);
    /// let enclosure = |low, high| Enclosure::new(number(low), number(high)).expect("ends in order");
    ///
    /// assert_eq!(enclosure(1.0, 1.5).checked_sub(enclosure(-2.0, 3.0)), Some(enclosure(-2.0, 3.5)));
    /// // 8.5 does not fit
    /// assert_eq!(enclosure(1.0, 1.5).checked_sub(enclosure(-7.0, 0.0)), None);
    /// ```
    ///
    /// # Proved
    ///
    /// ```text
    /// ensures ends { option_map (ends_of T.value) result ≡ fitting T.SIGNED T.BITS (difference_ends (ends_of T.value self) (ends_of T.value other)) }
    /// ensures holds { IfSome result (λ e. HoldsDifferences (ends_of T.value self) (ends_of T.value other) (ends_of T.value e)) }
    /// ```
    ///
    /// Definitions: [`difference_ends`], [`ends_of`], [`fitting`], [`HoldsDifferences`].
    ///
    /// [`difference_ends`]: crate::definitions::interval_ends
    /// [`ends_of`]: crate::definitions::interval_ends
    /// [`fitting`]: crate::definitions::interval_ends
    /// [`HoldsDifferences`]: crate::definitions::interval_containment
    #[must_use]
    pub fn checked_sub(self, other: Self) -> Option<Self> {
        enclosed(sub_in(&self.to_interval(), &other.to_interval()))
    }

    /// Returns the enclosure of the products, or `None` if an end does not fit. Precondition: F is at most the width.
    ///
    /// # Examples
    ///
    /// ```
    /// use zugyelmas::Enclosure;
    /// use zugyelmas::prelude::*;
    /// type Number = FixedI8<4>; // from -8 to 7.9375
    /// let number = |value: f64| Number::from_num(value);
    /// let enclosure = |low, high| Enclosure::new(number(low), number(high)).expect("ends in order");
    ///
    /// assert_eq!(enclosure(1.0, 1.5).checked_mul(enclosure(-2.0, 3.0)), Some(enclosure(-3.0, 4.5)));
    /// // The square of 0.3125 is 0.09765625, which lies between 1 and 2 units of 1/16.
    /// let point = Enclosure::point(number(0.3125));
    /// assert_eq!(point.checked_mul(point), Some(enclosure(0.0625, 0.125)));
    /// // 8 does not fit
    /// assert_eq!(enclosure(1.0, 4.0).checked_mul(enclosure(2.0, 2.0)), None);
    /// ```
    ///
    /// # Compile errors
    ///
    /// Compiles only if the fraction F is at most the width.
    ///
    /// # Proved
    ///
    /// ```text
    /// requires { F ≤ T.BITS }
    /// ensures ends { option_map (ends_of T.value) result ≡ fitting T.SIGNED T.BITS (product_ends (ends_of T.value self) (ends_of T.value other) F) }
    /// ensures holds { IfSome result (λ e. HoldsProducts (ends_of T.value self) (ends_of T.value other) F (ends_of T.value e)) }
    /// ```
    ///
    /// Definitions: [`ends_of`], [`fitting`], [`product_ends`], [`HoldsProducts`].
    ///
    /// [`ends_of`]: crate::definitions::interval_ends
    /// [`fitting`]: crate::definitions::interval_ends
    /// [`product_ends`]: crate::definitions::interval_ends
    /// [`HoldsProducts`]: crate::definitions::interval_containment
    #[track_caller]
    #[must_use]
    pub fn checked_mul(self, other: Self) -> Option<Self> {
        const {
            assert!(
                F <= T::BITS,
                "precondition: the fraction F is at most the width"
            )
        };
        enclosed(mul_in(&self.to_interval(), &other.to_interval(), F))
    }

    /// Returns the enclosure of the quotients, or `None` if 0 is in the divisor or an end does not fit. Precondition: F
    /// is at most the width.
    ///
    /// # Examples
    ///
    /// ```
    /// use zugyelmas::Enclosure;
    /// use zugyelmas::prelude::*;
    /// type Number = FixedI8<4>; // from -8 to 7.9375
    /// let number = |value: f64| Number::from_num(value);
    /// let enclosure = |low, high| Enclosure::new(number(low), number(high)).expect("ends in order");
    ///
    /// // 1 by 3 is 5.33.. units, which is rounded outward.
    /// assert_eq!(enclosure(1.0, 1.0).checked_div(enclosure(3.0, 3.0)), Some(enclosure(0.3125, 0.375)));
    /// // 0 is among the divisors
    /// assert_eq!(enclosure(1.0, 1.0).checked_div(enclosure(-1.0, 1.0)), None);
    /// ```
    ///
    /// # Compile errors
    ///
    /// Compiles only if the fraction F is at most the width.
    ///
    /// # Proved
    ///
    /// ```text
    /// requires { F ≤ T.BITS }
    /// ensures ends { option_map (ends_of T.value) result ≡ fitting T.SIGNED T.BITS (quotient_ends (ends_of T.value self) (ends_of T.value other) F) }
    /// ensures holds { IfSome result (λ e. HoldsQuotients (ends_of T.value self) (ends_of T.value other) F (ends_of T.value e)) }
    /// ```
    ///
    /// Definitions: [`ends_of`], [`fitting`], [`quotient_ends`], [`HoldsQuotients`].
    ///
    /// [`ends_of`]: crate::definitions::interval_ends
    /// [`fitting`]: crate::definitions::interval_ends
    /// [`quotient_ends`]: crate::definitions::interval_ends
    /// [`HoldsQuotients`]: crate::definitions::interval_containment
    #[track_caller]
    #[must_use]
    pub fn checked_div(self, other: Self) -> Option<Self> {
        const {
            assert!(
                F <= T::BITS,
                "precondition: the fraction F is at most the width"
            )
        };
        enclosed(div_in(&self.to_interval(), &other.to_interval(), F))
    }

    /// Returns the enclosure of the square roots, or `None` if the low end is below 0 or an end does not fit.
    /// Precondition: F is at most the width.
    ///
    /// # Examples
    ///
    /// ```
    /// use zugyelmas::Enclosure;
    /// use zugyelmas::prelude::*;
    /// type Number = FixedI8<4>; // from -8 to 7.9375
    /// let number = |value: f64| Number::from_num(value);
    /// let enclosure = |low, high| Enclosure::new(number(low), number(high)).expect("ends in order");
    ///
    /// // The root of 2 is 1.414.., between 1.375 and 1.4375.
    /// assert_eq!(enclosure(2.0, 2.0).checked_sqrt(), Some(enclosure(1.375, 1.4375)));
    /// assert_eq!(enclosure(-1.0, 2.0).checked_sqrt(), None); // the low end has no root
    /// ```
    ///
    /// # Compile errors
    ///
    /// Compiles only if the fraction F is at most the width.
    ///
    /// # Proved
    ///
    /// ```text
    /// requires { F ≤ T.BITS }
    /// ensures ends { option_map (ends_of T.value) result ≡ fitting T.SIGNED T.BITS (root_ends (ends_of T.value self) F) }
    /// ensures holds { IfSome result (λ e. HoldsRoots (ends_of T.value self) F (ends_of T.value e)) }
    /// ```
    ///
    /// Definitions: [`ends_of`], [`fitting`], [`root_ends`], [`HoldsRoots`].
    ///
    /// [`ends_of`]: crate::definitions::interval_ends
    /// [`fitting`]: crate::definitions::interval_ends
    /// [`root_ends`]: crate::definitions::interval_ends
    /// [`HoldsRoots`]: crate::definitions::interval_containment
    #[track_caller]
    #[must_use]
    pub fn checked_sqrt(self) -> Option<Self> {
        const {
            assert!(
                F <= T::BITS,
                "precondition: the fraction F is at most the width"
            )
        };
        enclosed(sqrt_in(&self.to_interval(), F))
    }

    /// Returns the enclosure of the negatives, or `None` if an end does not fit.
    ///
    /// # Examples
    ///
    /// ```
    /// use zugyelmas::Enclosure;
    /// use zugyelmas::prelude::*;
    /// type Number = FixedI8<4>; // from -8 to 7.9375
    /// let number = |value: f64| Number::from_num(value);
    /// let enclosure = |low, high| Enclosure::new(number(low), number(high)).expect("ends in order");
    ///
    /// assert_eq!(enclosure(-1.0, 1.5).checked_neg(), Some(enclosure(-1.5, 1.0)));
    /// assert_eq!(enclosure(-8.0, 1.5).checked_neg(), None); // 8 does not fit
    /// ```
    ///
    /// # Proved
    ///
    /// ```text
    /// ensures ends { option_map (ends_of T.value) result ≡ fitting T.SIGNED T.BITS (negation_ends (ends_of T.value self)) }
    /// ensures holds { IfSome result (λ e. HoldsNegations (ends_of T.value self) (ends_of T.value e)) }
    /// ```
    ///
    /// Definitions: [`ends_of`], [`fitting`], [`negation_ends`], [`HoldsNegations`].
    ///
    /// [`ends_of`]: crate::definitions::interval_ends
    /// [`fitting`]: crate::definitions::interval_ends
    /// [`negation_ends`]: crate::definitions::interval_ends
    /// [`HoldsNegations`]: crate::definitions::interval_containment
    #[must_use]
    pub fn checked_neg(self) -> Option<Self> {
        enclosed(neg_in(&self.to_interval()))
    }

    /// Returns the enclosure of the magnitudes, or `None` if an end does not fit.
    ///
    /// # Examples
    ///
    /// ```
    /// use zugyelmas::Enclosure;
    /// use zugyelmas::prelude::*;
    /// type Number = FixedI8<4>; // from -8 to 7.9375
    /// let number = |value: f64| Number::from_num(value);
    /// let enclosure = |low, high| Enclosure::new(number(low), number(high)).expect("ends in order");
    ///
    /// assert_eq!(enclosure(-1.0, 1.5).checked_abs(), Some(enclosure(0.0, 1.5)));
    /// assert_eq!(enclosure(-8.0, 1.5).checked_abs(), None); // 8 does not fit
    /// ```
    ///
    /// # Proved
    ///
    /// ```text
    /// ensures ends { option_map (ends_of T.value) result ≡ fitting T.SIGNED T.BITS (magnitude_ends (ends_of T.value self)) }
    /// ensures holds { IfSome result (λ e. HoldsMagnitudes (ends_of T.value self) (ends_of T.value e)) }
    /// ```
    ///
    /// Definitions: [`ends_of`], [`fitting`], [`magnitude_ends`], [`HoldsMagnitudes`].
    ///
    /// [`ends_of`]: crate::definitions::interval_ends
    /// [`fitting`]: crate::definitions::interval_ends
    /// [`magnitude_ends`]: crate::definitions::interval_ends
    /// [`HoldsMagnitudes`]: crate::definitions::interval_containment
    #[must_use]
    pub fn checked_abs(self) -> Option<Self> {
        enclosed(abs_in(&self.to_interval()))
    }

    /// Returns the enclosure of the squares, or `None` if an end does not fit. If 0 is inside, this is narrower than
    /// the product of the enclosure with itself. Precondition: F is at most the width.
    ///
    /// # Examples
    ///
    /// ```
    /// use zugyelmas::Enclosure;
    /// use zugyelmas::prelude::*;
    /// type Number = FixedI8<4>; // from -8 to 7.9375
    /// let number = |value: f64| Number::from_num(value);
    /// let enclosure = |low, high| Enclosure::new(number(low), number(high)).expect("ends in order");
    ///
    /// assert_eq!(enclosure(-1.0, 1.5).checked_square(), Some(enclosure(0.0, 2.25)));
    /// // The product with itself takes each number of both, as -1 and 1.5.
    /// assert_eq!(enclosure(-1.0, 1.5).checked_mul(enclosure(-1.0, 1.5)), Some(enclosure(-1.5, 2.25)));
    /// assert_eq!(enclosure(1.0, 3.0).checked_square(), None); // 9 does not fit
    /// ```
    ///
    /// # Compile errors
    ///
    /// Compiles only if the fraction F is at most the width.
    ///
    /// # Proved
    ///
    /// ```text
    /// requires { F ≤ T.BITS }
    /// ensures ends { option_map (ends_of T.value) result ≡ fitting T.SIGNED T.BITS (square_ends (ends_of T.value self) F) }
    /// ensures holds { IfSome result (λ e. HoldsSquares (ends_of T.value self) F (ends_of T.value e)) }
    /// ```
    ///
    /// Definitions: [`ends_of`], [`fitting`], [`square_ends`], [`HoldsSquares`].
    ///
    /// [`ends_of`]: crate::definitions::interval_ends
    /// [`fitting`]: crate::definitions::interval_ends
    /// [`square_ends`]: crate::definitions::interval_ends
    /// [`HoldsSquares`]: crate::definitions::interval_containment
    #[track_caller]
    #[must_use]
    pub fn checked_square(self) -> Option<Self> {
        const {
            assert!(
                F <= T::BITS,
                "precondition: the fraction F is at most the width"
            )
        };
        enclosed(square_in(&self.to_interval(), F))
    }
}
