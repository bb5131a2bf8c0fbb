// Made by `make package` of crates/fixed_enclosure/src/operators.rt, which is proved: changes go there.

//! Operators between enclosures. Precondition of each: the ends of the result fit.

use crate::enclosure::enclosure::Enclosure;
use crate::word::Word;
use core::ops::{Add, Div, Mul, Neg, Sub};

impl<T: Word, const F: u32> Neg for Enclosure<T, F> {
    type Output = Self;

    /// Returns the enclosure of the negatives. Precondition: the ends of the result fit.
    ///
    /// # Examples
    ///
    /// ```
    /// use zugyelmas::Enclosure;
    /// use zugyelmas::prelude::*;
    /// type Number = FixedI8<4>; // from -8 to 7.9375
    /// let number = |value: f64| Number::from_num(value);
    /// let enclosure = |low, high| Enclosure::new(number(low), number(high)).expect("ends in order");
    ///
    /// assert_eq!(-enclosure(-1.0, 1.5), enclosure(-1.5, 1.0));
    /// ```
    ///
    /// ```should_panic
    /// # use zugyelmas::Enclosure;
    /// # use zugyelmas::prelude::*;
    /// # type Number = FixedI8<4>; // from -8 to 7.9375
    /// # let number = |value: f64| Number::from_num(value);
    /// # let enclosure = |low, high| Enclosure::new(number(low), number(high)).expect("ends in order");
    /// # std::panic::set_hook(Box::new(|_| {}));
    /// -enclosure(-8.0, 1.5); // 8 does not fit
    /// ```
    ///
    /// # Panics
    ///
    /// Panics unless the ends fit.
    ///
    /// # Proved
    ///
    /// ```text
    /// can_neg = { λ a. EndsFit T.SIGNED T.BITS (negation_of (ends_of T.value a)) }
    /// neg_gives = { λ a r. ends_of T.value r ≡ negation_of (ends_of T.value a) }
    /// ```
    ///
    /// Definitions: [`ends_of`], [`negation_of`], [`EndsFit`].
    ///
    /// [`ends_of`]: crate::definitions::interval_ends
    /// [`negation_of`]: crate::definitions::interval_ends
    /// [`EndsFit`]: crate::definitions::enclosure_sets
    #[track_caller]
    fn neg(self) -> Self {
        assert!(self.checked_neg().is_some(), "precondition: the ends fit");
        self.checked_neg().unwrap()
    }
}

impl<T: Word, const F: u32> Add for Enclosure<T, F> {
    type Output = Self;

    /// Returns the enclosure of the sums. Precondition: the ends of the result fit.
    ///
    /// # Examples
    ///
    /// ```
    /// use zugyelmas::Enclosure;
    /// use zugyelmas::prelude::*;
    /// type Number = FixedI8<4>; // from -8 to 7.9375
    /// let number = |value: f64| Number::from_num(value);
    /// let enclosure = |low, high| Enclosure::new(number(low), number(high)).expect("ends in order");
    ///
    /// assert_eq!(enclosure(1.0, 1.5) + enclosure(-2.0, 3.0), enclosure(-1.0, 4.5));
    /// ```
    ///
    /// ```should_panic
    /// # use zugyelmas::Enclosure;
    /// # use zugyelmas::prelude::*;
    /// # type Number = FixedI8<4>; // from -8 to 7.9375
    /// # let number = |value: f64| Number::from_num(value);
    /// # let enclosure = |low, high| Enclosure::new(number(low), number(high)).expect("ends in order");
    /// # std::panic::set_hook(Box::new(|_| {}));
    /// enclosure(1.0, 1.5) + enclosure(0.0, 7.0); // 8.5 does not fit
    /// ```
    ///
    /// # Panics
    ///
    /// Panics unless the ends fit.
    ///
    /// # Proved
    ///
    /// ```text
    /// can_add = { λ a b. EndsFit T.SIGNED T.BITS (sum_of (ends_of T.value a) (ends_of T.value b)) }
    /// add_gives = { λ a b r. ends_of T.value r ≡ sum_of (ends_of T.value a) (ends_of T.value b) }
    /// ```
    ///
    /// Definitions: [`ends_of`], [`sum_of`], [`EndsFit`].
    ///
    /// [`ends_of`]: crate::definitions::interval_ends
    /// [`sum_of`]: crate::definitions::interval_ends
    /// [`EndsFit`]: crate::definitions::enclosure_sets
    #[track_caller]
    fn add(self, rhs: Self) -> Self {
        assert!(
            self.checked_add(rhs).is_some(),
            "precondition: the ends fit"
        );
        self.checked_add(rhs).unwrap()
    }
}

impl<T: Word, const F: u32> Sub for Enclosure<T, F> {
    type Output = Self;

    /// Returns the enclosure of the differences. Precondition: the ends of the result fit.
    ///
    /// # Examples
    ///
    /// ```
    /// use zugyelmas::Enclosure;
    /// use zugyelmas::prelude::*;
    /// type Number = FixedI8<4>; // from -8 to 7.9375
    /// let number = |value: f64| Number::from_num(value);
    /// let enclosure = |low, high| Enclosure::new(number(low), number(high)).expect("ends in order");
    ///
    /// assert_eq!(enclosure(1.0, 1.5) - enclosure(-2.0, 3.0), enclosure(-2.0, 3.5));
    /// ```
    ///
    /// ```should_panic
    /// # use zugyelmas::Enclosure;
    /// # use zugyelmas::prelude::*;
    /// # type Number = FixedI8<4>; // from -8 to 7.9375
    /// # let number = |value: f64| Number::from_num(value);
    /// # let enclosure = |low, high| Enclosure::new(number(low), number(high)).expect("ends in order");
    /// # std::panic::set_hook(Box::new(|_| {}));
    /// enclosure(1.0, 1.5) - enclosure(-7.0, 0.0); // 8.5 does not fit
    /// ```
    ///
    /// # Panics
    ///
    /// Panics unless the ends fit.
    ///
    /// # Proved
    ///
    /// ```text
    /// can_sub = { λ a b. EndsFit T.SIGNED T.BITS (difference_of (ends_of T.value a) (ends_of T.value b)) }
    /// sub_gives = { λ a b r. ends_of T.value r ≡ difference_of (ends_of T.value a) (ends_of T.value b) }
    /// ```
    ///
    /// Definitions: [`difference_of`], [`ends_of`], [`EndsFit`].
    ///
    /// [`difference_of`]: crate::definitions::interval_ends
    /// [`ends_of`]: crate::definitions::interval_ends
    /// [`EndsFit`]: crate::definitions::enclosure_sets
    #[track_caller]
    fn sub(self, rhs: Self) -> Self {
        assert!(
            self.checked_sub(rhs).is_some(),
            "precondition: the ends fit"
        );
        self.checked_sub(rhs).unwrap()
    }
}

impl<T: Word, const F: u32> Mul for Enclosure<T, F> {
    type Output = Self;

    /// Returns the enclosure of the products. Preconditions: F is at most the width, and the ends of the result fit.
    ///
    /// # Examples
    ///
    /// ```
    /// use zugyelmas::Enclosure;
    /// use zugyelmas::prelude::*;
    /// type Number = FixedI8<4>; // from -8 to 7.9375
    /// let number = |value: f64| Number::from_num(value);
    /// let enclosure = |low, high| Enclosure::new(number(low), number(high)).expect("ends in order");
    ///
    /// assert_eq!(enclosure(1.0, 1.5) * enclosure(-2.0, 3.0), enclosure(-3.0, 4.5));
    /// ```
    ///
    /// ```should_panic
    /// # use zugyelmas::Enclosure;
    /// # use zugyelmas::prelude::*;
    /// # type Number = FixedI8<4>; // from -8 to 7.9375
    /// # let number = |value: f64| Number::from_num(value);
    /// # let enclosure = |low, high| Enclosure::new(number(low), number(high)).expect("ends in order");
    /// # std::panic::set_hook(Box::new(|_| {}));
    /// enclosure(1.0, 4.0) * enclosure(2.0, 2.0); // 8 does not fit
    /// ```
    ///
    /// # Compile errors
    ///
    /// Compiles only if the fraction F is at most the width.
    ///
    /// # Panics
    ///
    /// Panics unless the ends fit.
    ///
    /// # Proved
    ///
    /// ```text
    /// can_mul = { λ a b. (F ≤ T.BITS)
    ///     × EndsFit T.SIGNED T.BITS (product_of (ends_of T.value a) (ends_of T.value b) F) }
    /// mul_gives = { λ a b r. ends_of T.value r ≡ product_of (ends_of T.value a) (ends_of T.value b) F }
    /// ```
    ///
    /// Definitions: [`ends_of`], [`product_of`], [`EndsFit`].
    ///
    /// [`ends_of`]: crate::definitions::interval_ends
    /// [`product_of`]: crate::definitions::interval_ends
    /// [`EndsFit`]: crate::definitions::enclosure_sets
    #[track_caller]
    fn mul(self, rhs: Self) -> Self {
        const {
            assert!(
                F <= T::BITS,
                "precondition: the fraction F is at most the width"
            )
        };
        assert!(
            self.checked_mul(rhs).is_some(),
            "precondition: the ends fit"
        );
        self.checked_mul(rhs).unwrap()
    }
}

impl<T: Word, const F: u32> Div for Enclosure<T, F> {
    type Output = Self;

    /// Returns the enclosure of the quotients. Preconditions: F is at most the width, 0 is outside the divisor, and the
    /// ends of the result fit.
    ///
    /// # Examples
    ///
    /// ```
    /// use zugyelmas::Enclosure;
    /// use zugyelmas::prelude::*;
    /// type Number = FixedI8<4>; // from -8 to 7.9375
    /// let number = |value: f64| Number::from_num(value);
    /// let enclosure = |low, high| Enclosure::new(number(low), number(high)).expect("ends in order");
    ///
    /// // rounded outward
    /// assert_eq!(enclosure(1.0, 1.0) / enclosure(3.0, 3.0), enclosure(0.3125, 0.375));
    /// ```
    ///
    /// ```should_panic
    /// # use zugyelmas::Enclosure;
    /// # use zugyelmas::prelude::*;
    /// # type Number = FixedI8<4>; // from -8 to 7.9375
    /// # let number = |value: f64| Number::from_num(value);
    /// # let enclosure = |low, high| Enclosure::new(number(low), number(high)).expect("ends in order");
    /// # std::panic::set_hook(Box::new(|_| {}));
    /// enclosure(1.0, 1.0) / enclosure(-1.0, 1.0); // 0 is among the divisors
    /// ```
    ///
    /// # Compile errors
    ///
    /// Compiles only if the fraction F is at most the width.
    ///
    /// # Panics
    ///
    /// Panics unless the divisor does not contain 0, and the ends fit.
    ///
    /// # Proved
    ///
    /// ```text
    /// can_div = { λ a b. (F ≤ T.BITS) × (has_zero (ends_of T.value b) ≡ false)
    ///     × EndsFit T.SIGNED T.BITS (quotient_of (ends_of T.value a) (ends_of T.value b) F) }
    /// div_gives = { λ a b r. ends_of T.value r ≡ quotient_of (ends_of T.value a) (ends_of T.value b) F }
    /// ```
    ///
    /// Definitions: [`ends_of`], [`has_zero`], [`quotient_of`], [`EndsFit`].
    ///
    /// [`ends_of`]: crate::definitions::interval_ends
    /// [`has_zero`]: crate::definitions::interval_ends
    /// [`quotient_of`]: crate::definitions::interval_ends
    /// [`EndsFit`]: crate::definitions::enclosure_sets
    #[track_caller]
    fn div(self, rhs: Self) -> Self {
        const {
            assert!(
                F <= T::BITS,
                "precondition: the fraction F is at most the width"
            )
        };
        assert!(
            !rhs.contains(crate::Fixed { bits: T::ZERO }),
            "precondition: the divisor does not contain 0"
        );
        assert!(
            self.checked_div(rhs).is_some(),
            "precondition: the ends fit"
        );
        self.checked_div(rhs).unwrap()
    }
}
