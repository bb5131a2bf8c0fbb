// Made by `make package` of crates/fixed_policy/src/overflowing_products.rt, which is proved: changes go there.

//! The `overflowing_` forms of multiply-add and of sums of products. The factors may have other fractions.

use crate::kernel::{add_prod_of, add_prod_round_of, mul_add_of, mul_add_round_of};
use crate::num::{Fixed, Held, Number, overflowing_number};
use crate::word::{RawWord, Rounding, Word};

/// Multiply-add by a factor with G fraction bits. Precondition of each call: G is at most the width.
pub trait OverflowingMulAdd<const G: u32>: Number {
    /// Returns the product by `mul`, rounded down, plus `add`, wrapped, and whether the exact result does not fit.
    /// The product alone may be out of range.
    ///
    /// # Examples
    ///
    /// ```
    /// use zugyelmas::prelude::*;
    /// type Number = FixedI8<4>; // from -8 to 7.9375
    /// let number = Number::from_num::<f64>;
    ///
    /// assert_eq!(number(1.5).overflowing_mul_add(number(2.0), number(0.5)), (number(3.5), false));
    /// // the product alone does not fit
    /// assert_eq!(number(4.0).overflowing_mul_add(number(2.0), number(-0.5)), (number(7.5), false));
    /// // 1.5 * 1.25 + 0.5
    /// assert_eq!(number(1.5).overflowing_mul_add(FixedI8::<6>::from_bits(80), number(0.5)), (number(2.375), false));
    /// // 8.5 does not fit
    /// assert_eq!(number(4.0).overflowing_mul_add(number(2.0), number(0.5)), (number(-7.5), true));
    /// ```
    ///
    /// # Compile errors
    ///
    /// Compiles only if the fraction G is at most the width.
    ///
    /// # Proved
    ///
    /// ```text
    /// requires { G ≤ Self.BITS }
    /// ensures { Some (Self.number result.0, result.1) ≡ overflowing Self.SIGNED Self.BITS (Some
    ///     (exact_mul_add (Self.number self) (Self.Bits.value mul.bits) (Self.number add) G)) }
    /// ```
    ///
    /// Definitions: [`overflowing`], [`exact_mul_add`].
    ///
    /// [`overflowing`]: crate::definitions::word_policies
    /// [`exact_mul_add`]: crate::definitions::kernel_rows
    #[must_use]
    fn overflowing_mul_add(self, mul: Fixed<Self::Bits, G>, add: Self) -> (Self, bool);

    /// Returns the product by `mul`, rounded as named, plus `add`, wrapped, and whether the exact result does not
    /// fit.
    ///
    /// # Examples
    ///
    /// ```
    /// use zugyelmas::prelude::*;
    /// use zugyelmas::word::Rounding;
    /// type Number = FixedI8<4>; // from -8 to 7.9375
    /// let number = Number::from_num::<f64>;
    ///
    /// // 3.5 units: a tie, to 4 units
    /// assert_eq!(number(0.4375).overflowing_mul_add_round(FixedI8::<2>::from_bits(2), number(0.0625), Rounding::Even), (number(0.3125), false));
    /// // 8.5 does not fit
    /// assert_eq!(number(4.0).overflowing_mul_add_round(number(2.0), number(0.5), Rounding::Even), (number(-7.5), true));
    /// ```
    ///
    /// # Compile errors
    ///
    /// Compiles only if the fraction G is at most the width.
    ///
    /// # Proved
    ///
    /// ```text
    /// requires { G ≤ Self.BITS }
    /// ensures { Some (Self.number result.0, result.1) ≡ overflowing Self.SIGNED Self.BITS
    ///     (Some (rounded_mul_add (Self.number self) (Self.Bits.value mul.bits)
    ///     (Self.number add) G rounding)) }
    /// ```
    ///
    /// Definitions: [`overflowing`], [`rounded_mul_add`].
    ///
    /// [`overflowing`]: crate::definitions::word_policies
    /// [`rounded_mul_add`]: crate::definitions::kernel_rounded_rows
    #[must_use]
    fn overflowing_mul_add_round(
        self,
        mul: Fixed<Self::Bits, G>,
        add: Self,
        rounding: Rounding,
    ) -> (Self, bool);
}

impl<T: Word, const F: u32, const G: u32> OverflowingMulAdd<G> for Fixed<T, F> {
    #[track_caller]
    fn overflowing_mul_add(self, mul: Fixed<T, G>, add: Self) -> (Self, bool) {
        const {
            assert!(
                G <= T::BITS,
                "precondition: the fraction G is at most the width"
            )
        };
        overflowing_number(mul_add_of(self.bits, mul.bits, add.bits, G))
    }

    #[track_caller]
    fn overflowing_mul_add_round(
        self,
        mul: Fixed<T, G>,
        add: Self,
        rounding: Rounding,
    ) -> (Self, bool) {
        const {
            assert!(
                G <= T::BITS,
                "precondition: the fraction G is at most the width"
            )
        };
        overflowing_number(mul_add_round_of(self.bits, mul.bits, add.bits, G, rounding))
    }
}

/// Sums with a product of factors with A and B fraction bits. Precondition of each call: F, A and B are at most the
/// width.
pub trait OverflowingProducts<const A: u32, const B: u32>: Number {
    /// Returns the number plus the product of `a` and `b`, which is rounded down to the number's fraction bits,
    /// wrapped, and whether the exact result does not fit.
    ///
    /// # Examples
    ///
    /// ```
    /// use zugyelmas::prelude::*;
    /// type Number = FixedI8<4>; // from -8 to 7.9375
    /// let number = Number::from_num::<f64>;
    ///
    /// assert_eq!(number(0.5).overflowing_add_prod(number(1.5), number(2.0)), (number(3.5), false));
    /// // the product alone does not fit
    /// assert_eq!(number(-0.5).overflowing_add_prod(number(4.0), number(2.0)), (number(7.5), false));
    /// // 0.5 + 1.25 * 1.5
    /// assert_eq!(number(0.5).overflowing_add_prod(FixedI8::<6>::from_bits(80), number(1.5)), (number(2.375), false));
    /// // 8.5 does not fit
    /// assert_eq!(number(0.5).overflowing_add_prod(number(4.0), number(2.0)), (number(-7.5), true));
    /// ```
    ///
    /// # Compile errors
    ///
    /// Compiles only if the fraction F is at most the width, and the fraction A is at most the width, and the fraction B is at most the width.
    ///
    /// # Proved
    ///
    /// ```text
    /// requires fraction { Self.FRACTION ≤ Self.BITS }
    /// requires a { A ≤ Self.BITS }
    /// requires b { B ≤ Self.BITS }
    /// ensures { Some (Self.number result.0, result.1)
    ///     ≡ overflowing Self.SIGNED Self.BITS (Some (exact_add_prod (Self.number self)
    ///     (Self.Bits.value a.bits) (Self.Bits.value b.bits) Self.FRACTION A B)) }
    /// ```
    ///
    /// Definitions: [`overflowing`], [`exact_add_prod`].
    ///
    /// [`overflowing`]: crate::definitions::word_policies
    /// [`exact_add_prod`]: crate::definitions::kernel_rows
    #[must_use]
    fn overflowing_add_prod(self, a: Fixed<Self::Bits, A>, b: Fixed<Self::Bits, B>)
    -> (Self, bool);

    /// Returns the number plus the product of `a` and `b`, which is rounded as named to the number's fraction bits,
    /// wrapped, and whether the exact result does not fit.
    ///
    /// # Examples
    ///
    /// ```
    /// use zugyelmas::prelude::*;
    /// use zugyelmas::word::Rounding;
    /// type Number = FixedI8<4>; // from -8 to 7.9375
    /// let number = Number::from_num::<f64>;
    ///
    /// // 3.5 units: a tie, to 4 units
    /// assert_eq!(number(0.0625).overflowing_add_prod_round(number(0.4375), FixedI8::<2>::from_bits(2), Rounding::Even), (number(0.3125), false));
    /// // 8.5 does not fit
    /// assert_eq!(number(0.5).overflowing_add_prod_round(number(4.0), number(2.0), Rounding::Even), (number(-7.5), true));
    /// ```
    ///
    /// # Compile errors
    ///
    /// Compiles only if the fraction F is at most the width, and the fraction A is at most the width, and the fraction B is at most the width.
    ///
    /// # Proved
    ///
    /// ```text
    /// requires fraction { Self.FRACTION ≤ Self.BITS }
    /// requires a { A ≤ Self.BITS }
    /// requires b { B ≤ Self.BITS }
    /// ensures { Some (Self.number result.0, result.1) ≡ overflowing Self.SIGNED Self.BITS
    ///     (Some (rounded_add_prod (Self.number self) (Self.Bits.value a.bits) (Self.Bits.value b.bits)
    ///     Self.FRACTION A B rounding)) }
    /// ```
    ///
    /// Definitions: [`overflowing`], [`rounded_add_prod`].
    ///
    /// [`overflowing`]: crate::definitions::word_policies
    /// [`rounded_add_prod`]: crate::definitions::kernel_rounded_rows
    #[must_use]
    fn overflowing_add_prod_round(
        self,
        a: Fixed<Self::Bits, A>,
        b: Fixed<Self::Bits, B>,
        rounding: Rounding,
    ) -> (Self, bool);

    /// Stores the wrapped result of `overflowing_add_prod` in the number, and returns whether the exact sum does not
    /// fit.
    ///
    /// # Examples
    ///
    /// ```
    /// use zugyelmas::prelude::*;
    /// type Number = FixedI8<4>; // from -8 to 7.9375
    /// let number = Number::from_num::<f64>;
    ///
    /// let mut sum = number(0.5);
    /// assert!(!sum.overflowing_mul_acc(number(1.5), number(2.0)));
    /// assert_eq!(sum, number(3.5));
    /// assert!(sum.overflowing_mul_acc(number(4.0), number(2.0))); // 11.5 does not fit
    /// assert_eq!(sum, number(-4.5)); // 11.5 - 16
    /// ```
    ///
    /// # Compile errors
    ///
    /// Compiles only if the fraction F is at most the width, and the fraction A is at most the width, and the fraction B is at most the width.
    ///
    /// # Proved
    ///
    /// ```text
    /// requires fraction { Self.FRACTION ≤ Self.BITS }
    /// requires a { A ≤ Self.BITS }
    /// requires b { B ≤ Self.BITS }
    /// ensures { Some (Self.number self.new, result)
    ///     ≡ overflowing Self.SIGNED Self.BITS (Some (exact_add_prod (Self.number self.old)
    ///     (Self.Bits.value a.bits) (Self.Bits.value b.bits) Self.FRACTION A B)) }
    /// ```
    ///
    /// Definitions: [`overflowing`], [`exact_add_prod`].
    ///
    /// [`overflowing`]: crate::definitions::word_policies
    /// [`exact_add_prod`]: crate::definitions::kernel_rows
    fn overflowing_mul_acc(&mut self, a: Fixed<Self::Bits, A>, b: Fixed<Self::Bits, B>) -> bool;
}

impl<T: Word, const F: u32, const A: u32, const B: u32> OverflowingProducts<A, B> for Fixed<T, F> {
    #[track_caller]
    fn overflowing_add_prod(self, a: Fixed<T, A>, b: Fixed<T, B>) -> (Self, bool) {
        const {
            assert!(
                F <= T::BITS,
                "precondition: the fraction F is at most the width"
            )
        };
        const {
            assert!(
                A <= T::BITS,
                "precondition: the fraction A is at most the width"
            )
        };
        const {
            assert!(
                B <= T::BITS,
                "precondition: the fraction B is at most the width"
            )
        };
        overflowing_number(add_prod_of(self.bits, a.bits, b.bits, F, A, B))
    }

    #[track_caller]
    fn overflowing_add_prod_round(
        self,
        a: Fixed<T, A>,
        b: Fixed<T, B>,
        rounding: Rounding,
    ) -> (Self, bool) {
        const {
            assert!(
                F <= T::BITS,
                "precondition: the fraction F is at most the width"
            )
        };
        const {
            assert!(
                A <= T::BITS,
                "precondition: the fraction A is at most the width"
            )
        };
        const {
            assert!(
                B <= T::BITS,
                "precondition: the fraction B is at most the width"
            )
        };
        overflowing_number(add_prod_round_of(
            self.bits, a.bits, b.bits, F, A, B, rounding,
        ))
    }

    #[track_caller]
    fn overflowing_mul_acc(&mut self, a: Fixed<T, A>, b: Fixed<T, B>) -> bool {
        const {
            assert!(
                F <= T::BITS,
                "precondition: the fraction F is at most the width"
            )
        };
        const {
            assert!(
                A <= T::BITS,
                "precondition: the fraction A is at most the width"
            )
        };
        const {
            assert!(
                B <= T::BITS,
                "precondition: the fraction B is at most the width"
            )
        };
        let (sum, overflows) = self.overflowing_add_prod(a, b);
        *self = sum;
        overflows
    }
}
