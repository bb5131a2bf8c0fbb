// Made by `make package` of crates/fixed_policy/src/checked_products.rt, which is proved: changes go there.

//! The `checked_` forms of multiply-add and of sums of products. The factors may have other fractions.

use crate::kernel::{add_prod_of, add_prod_round_of, mul_add_of, mul_add_round_of};
use crate::num::{Fixed, Held, Number, checked_number};
use crate::word::{RawWord, Rounding, Word};

/// Multiply-add by a factor with G fraction bits. Precondition of each call: G is at most the width.
pub trait CheckedMulAdd<const G: u32>: Number {
    /// Returns the product by `mul`, rounded down, plus `add`, or `None` if the sum does not fit. The product alone
    /// may be out of range.
    ///
    /// # Examples
    ///
    /// ```
    /// use zugyelmas::prelude::*;
    /// type Number = FixedI8<4>; // from -8 to 7.9375
    /// let number = Number::from_num::<f64>;
    ///
    /// assert_eq!(number(1.5).checked_mul_add(number(2.0), number(0.5)), Some(number(3.5)));
    /// // the product alone does not fit
    /// assert_eq!(number(4.0).checked_mul_add(number(2.0), number(-0.5)), Some(number(7.5)));
    /// // 1.5 * 1.25 + 0.5
    /// assert_eq!(number(1.5).checked_mul_add(FixedI8::<6>::from_bits(80), number(0.5)), Some(number(2.375)));
    /// // 8.5 does not fit
    /// assert_eq!(number(4.0).checked_mul_add(number(2.0), number(0.5)), None);
    /// ```
    ///
    /// # Compile errors
    ///
    /// Compiles only if the fraction G is at most the width.
    ///
    /// # Proved
    ///
    /// ```text
    /// requires { G ≤ Self.BITS }
    /// ensures { option_map Self.number result ≡ checked Self.SIGNED Self.BITS (Some
    ///     (exact_mul_add (Self.number self) (Self.Bits.value mul.bits) (Self.number add) G)) }
    /// ```
    ///
    /// Definitions: [`checked`], [`exact_mul_add`].
    ///
    /// [`checked`]: crate::definitions::word_policies
    /// [`exact_mul_add`]: crate::definitions::kernel_rows
    #[must_use]
    fn checked_mul_add(self, mul: Fixed<Self::Bits, G>, add: Self) -> Option<Self>;

    /// Returns the product by `mul`, rounded as named, plus `add`, or `None` if the sum does not fit.
    ///
    /// # Examples
    ///
    /// ```
    /// use zugyelmas::prelude::*;
    /// use zugyelmas::word::Rounding;
    /// type Number = FixedI8<4>; // from -8 to 7.9375
    /// let number = Number::from_num::<f64>;
    ///
    /// // 3.5 units: a tie, to 4 units
    /// assert_eq!(number(0.4375).checked_mul_add_round(FixedI8::<2>::from_bits(2), number(0.0625), Rounding::Even), Some(number(0.3125)));
    /// // 8.5 does not fit
    /// assert_eq!(number(4.0).checked_mul_add_round(number(2.0), number(0.5), Rounding::Even), None);
    /// ```
    ///
    /// # Compile errors
    ///
    /// Compiles only if the fraction G is at most the width.
    ///
    /// # Proved
    ///
    /// ```text
    /// requires { G ≤ Self.BITS }
    /// ensures { option_map Self.number result ≡ checked Self.SIGNED Self.BITS
    ///     (Some (rounded_mul_add (Self.number self) (Self.Bits.value mul.bits)
    ///     (Self.number add) G rounding)) }
    /// ```
    ///
    /// Definitions: [`checked`], [`rounded_mul_add`].
    ///
    /// [`checked`]: crate::definitions::word_policies
    /// [`rounded_mul_add`]: crate::definitions::kernel_rounded_rows
    #[must_use]
    fn checked_mul_add_round(
        self,
        mul: Fixed<Self::Bits, G>,
        add: Self,
        rounding: Rounding,
    ) -> Option<Self>;
}

impl<T: Word, const F: u32, const G: u32> CheckedMulAdd<G> for Fixed<T, F> {
    #[track_caller]
    fn checked_mul_add(self, mul: Fixed<T, G>, add: Self) -> Option<Self> {
        const {
            assert!(
                G <= T::BITS,
                "precondition: the fraction G is at most the width"
            )
        };
        checked_number(mul_add_of(self.bits, mul.bits, add.bits, G))
    }

    #[track_caller]
    fn checked_mul_add_round(
        self,
        mul: Fixed<T, G>,
        add: Self,
        rounding: Rounding,
    ) -> Option<Self> {
        const {
            assert!(
                G <= T::BITS,
                "precondition: the fraction G is at most the width"
            )
        };
        checked_number(mul_add_round_of(self.bits, mul.bits, add.bits, G, rounding))
    }
}

/// Sums with a product of factors with A and B fraction bits. Precondition of each call: F, A and B are at most the
/// width.
pub trait CheckedProducts<const A: u32, const B: u32>: Number {
    /// Returns the number plus the product of `a` and `b`, which is rounded down to the number's fraction bits, or
    /// `None` if the sum does not fit.
    ///
    /// # Examples
    ///
    /// ```
    /// use zugyelmas::prelude::*;
    /// type Number = FixedI8<4>; // from -8 to 7.9375
    /// let number = Number::from_num::<f64>;
    ///
    /// assert_eq!(number(0.5).checked_add_prod(number(1.5), number(2.0)), Some(number(3.5)));
    /// // the product alone does not fit
    /// assert_eq!(number(-0.5).checked_add_prod(number(4.0), number(2.0)), Some(number(7.5)));
    /// // 0.5 + 1.25 * 1.5
    /// assert_eq!(number(0.5).checked_add_prod(FixedI8::<6>::from_bits(80), number(1.5)), Some(number(2.375)));
    /// // 8.5 does not fit
    /// assert_eq!(number(0.5).checked_add_prod(number(4.0), number(2.0)), None);
    /// ```
    ///
    /// # Compile errors
    ///
    /// Compiles only if the fraction F is at most the width, and the fraction A is at most the width, and the fraction B is at most the width.
    ///
    /// # Proved
    ///
    /// ```text
    /// requires fraction { Self.FRACTION ≤ Self.BITS }
    /// requires a { A ≤ Self.BITS }
    /// requires b { B ≤ Self.BITS }
    /// ensures { option_map Self.number result
    ///     ≡ checked Self.SIGNED Self.BITS (Some (exact_add_prod (Self.number self)
    ///     (Self.Bits.value a.bits) (Self.Bits.value b.bits) Self.FRACTION A B)) }
    /// ```
    ///
    /// Definitions: [`checked`], [`exact_add_prod`].
    ///
    /// [`checked`]: crate::definitions::word_policies
    /// [`exact_add_prod`]: crate::definitions::kernel_rows
    #[must_use]
    fn checked_add_prod(self, a: Fixed<Self::Bits, A>, b: Fixed<Self::Bits, B>) -> Option<Self>;

    /// Returns the number plus the product of `a` and `b`, which is rounded as named to the number's fraction bits,
    /// or `None` if the sum does not fit.
    ///
    /// # Examples
    ///
    /// ```
    /// use zugyelmas::prelude::*;
    /// use zugyelmas::word::Rounding;
    /// type Number = FixedI8<4>; // from -8 to 7.9375
    /// let number = Number::from_num::<f64>;
    ///
    /// // 3.5 units: a tie, to 4 units
    /// assert_eq!(number(0.0625).checked_add_prod_round(number(0.4375), FixedI8::<2>::from_bits(2), Rounding::Even), Some(number(0.3125)));
    /// // 8.5 does not fit
    /// assert_eq!(number(0.5).checked_add_prod_round(number(4.0), number(2.0), Rounding::Even), None);
    /// ```
    ///
    /// # Compile errors
    ///
    /// Compiles only if the fraction F is at most the width, and the fraction A is at most the width, and the fraction B is at most the width.
    ///
    /// # Proved
    ///
    /// ```text
    /// requires fraction { Self.FRACTION ≤ Self.BITS }
    /// requires a { A ≤ Self.BITS }
    /// requires b { B ≤ Self.BITS }
    /// ensures { option_map Self.number result ≡ checked Self.SIGNED Self.BITS
    ///     (Some (rounded_add_prod (Self.number self) (Self.Bits.value a.bits) (Self.Bits.value b.bits)
    ///     Self.FRACTION A B rounding)) }
    /// ```
    ///
    /// Definitions: [`checked`], [`rounded_add_prod`].
    ///
    /// [`checked`]: crate::definitions::word_policies
    /// [`rounded_add_prod`]: crate::definitions::kernel_rounded_rows
    #[must_use]
    fn checked_add_prod_round(
        self,
        a: Fixed<Self::Bits, A>,
        b: Fixed<Self::Bits, B>,
        rounding: Rounding,
    ) -> Option<Self>;

    /// Stores the result of `checked_add_prod` in the number. If that is `None`, returns `None` and leaves the number
    /// unchanged.
    ///
    /// # Examples
    ///
    /// ```
    /// use zugyelmas::prelude::*;
    /// type Number = FixedI8<4>; // from -8 to 7.9375
    /// let number = Number::from_num::<f64>;
    ///
    /// let mut sum = number(0.5);
    /// assert_eq!(sum.checked_mul_acc(number(1.5), number(2.0)), Some(()));
    /// assert_eq!(sum, number(3.5));
    /// assert_eq!(sum.checked_mul_acc(number(4.0), number(2.0)), None); // 11.5 does not fit
    /// assert_eq!(sum, number(3.5)); // as before
    /// ```
    ///
    /// # Compile errors
    ///
    /// Compiles only if the fraction F is at most the width, and the fraction A is at most the width, and the fraction B is at most the width.
    ///
    /// # Proved
    ///
    /// ```text
    /// requires fraction { Self.FRACTION ≤ Self.BITS }
    /// requires a { A ≤ Self.BITS }
    /// requires b { B ≤ Self.BITS }
    /// ensures value { (if is_some result then Some (Self.number self.new) else None)
    ///     ≡ checked Self.SIGNED Self.BITS (Some (exact_add_prod (Self.number self.old)
    ///     (Self.Bits.value a.bits) (Self.Bits.value b.bits) Self.FRACTION A B)) }
    /// ensures kept { IsNone result → self.new ≡ self.old }
    /// ```
    ///
    /// Definitions: [`checked`], [`exact_add_prod`].
    ///
    /// [`checked`]: crate::definitions::word_policies
    /// [`exact_add_prod`]: crate::definitions::kernel_rows
    fn checked_mul_acc(&mut self, a: Fixed<Self::Bits, A>, b: Fixed<Self::Bits, B>) -> Option<()>;

    /// Adds the products of the pairs one after the other, as `checked_mul_acc` does. If a partial result does not
    /// fit, returns `None` and leaves the number unchanged. Precondition: both slices have the same length. (`fixed`
    /// does not have this call.)
    ///
    /// # Examples
    ///
    /// ```
    /// use zugyelmas::prelude::*;
    /// type Number = FixedI8<4>; // from -8 to 7.9375
    /// let number = Number::from_num::<f64>;
    ///
    /// let mut sum = number(0.5);
    /// let (a, b) = ([number(1.5), number(-2.0)], [number(2.0), number(0.5)]);
    /// assert_eq!(sum.checked_dot_acc(&a, &b), Some(()));
    /// assert_eq!(sum, number(2.5)); // 0.5 + 3 - 1
    /// ```
    ///
    /// ```should_panic
    /// # use zugyelmas::prelude::*;
    /// # type Number = FixedI8<4>; // from -8 to 7.9375
    /// # let number = Number::from_num::<f64>;
    /// # std::panic::set_hook(Box::new(|_| {}));
    /// // two lengths
    /// Number::ZERO.checked_dot_acc(&[number(1.5)], &[number(2.0), number(0.5)]);
    /// ```
    ///
    /// # Compile errors
    ///
    /// Compiles only if the fraction F is at most the width, and the fraction A is at most the width, and the fraction B is at most the width.
    ///
    /// # Panics
    ///
    /// Panics unless both slices have the same length.
    ///
    /// # Proved
    ///
    /// ```text
    /// requires fraction { Self.FRACTION ≤ Self.BITS }
    /// requires a { A ≤ Self.BITS }
    /// requires b { B ≤ Self.BITS }
    /// requires lengths { length a.now ≡ length b.now }
    /// ensures some { IsSome result
    ///     ↔ PartsFit Self.SIGNED Self.BITS (places Self.FRACTION A B) (Self.number self.old)
    ///     (pairs (λ x. Self.Bits.value x.bits) (λ x. Self.Bits.value x.bits) a.now b.now) }
    /// ensures sum { IsSome result → Self.number self.new
    ///     ≡ dot (places Self.FRACTION A B) (Self.number self.old)
    ///     (pairs (λ x. Self.Bits.value x.bits) (λ x. Self.Bits.value x.bits) a.now b.now) }
    /// ensures kept { IsNone result → self.new ≡ self.old }
    /// ```
    ///
    /// Definitions: [`PartsFit`], [`dot`], [`pairs`], [`places`].
    ///
    /// [`PartsFit`]: crate::definitions::policy_dot_product
    /// [`dot`]: crate::definitions::policy_dot_product
    /// [`pairs`]: crate::definitions::policy_dot_product
    /// [`places`]: crate::definitions::policy_dot_product
    fn checked_dot_acc(
        &mut self,
        a: &[Fixed<Self::Bits, A>],
        b: &[Fixed<Self::Bits, B>],
    ) -> Option<()>;
}

impl<T: Word, const F: u32, const A: u32, const B: u32> CheckedProducts<A, B> for Fixed<T, F> {
    #[track_caller]
    fn checked_add_prod(self, a: Fixed<T, A>, b: Fixed<T, B>) -> Option<Self> {
        const {
            assert!(
                F <= T::BITS,
                "precondition: the fraction F is at most the width"
            )
        };
        const {
            assert!(
                A <= T::BITS,
                "precondition: the fraction A is at most the width"
            )
        };
        const {
            assert!(
                B <= T::BITS,
                "precondition: the fraction B is at most the width"
            )
        };
        checked_number(add_prod_of(self.bits, a.bits, b.bits, F, A, B))
    }

    #[track_caller]
    fn checked_add_prod_round(
        self,
        a: Fixed<T, A>,
        b: Fixed<T, B>,
        rounding: Rounding,
    ) -> Option<Self> {
        const {
            assert!(
                F <= T::BITS,
                "precondition: the fraction F is at most the width"
            )
        };
        const {
            assert!(
                A <= T::BITS,
                "precondition: the fraction A is at most the width"
            )
        };
        const {
            assert!(
                B <= T::BITS,
                "precondition: the fraction B is at most the width"
            )
        };
        checked_number(add_prod_round_of(
            self.bits, a.bits, b.bits, F, A, B, rounding,
        ))
    }

    #[track_caller]
    fn checked_mul_acc(&mut self, a: Fixed<T, A>, b: Fixed<T, B>) -> Option<()> {
        const {
            assert!(
                F <= T::BITS,
                "precondition: the fraction F is at most the width"
            )
        };
        const {
            assert!(
                A <= T::BITS,
                "precondition: the fraction A is at most the width"
            )
        };
        const {
            assert!(
                B <= T::BITS,
                "precondition: the fraction B is at most the width"
            )
        };
        match self.checked_add_prod(a, b) {
            Some(sum) => {
                *self = sum;
                Some(())
            }
            None => None,
        }
    }

    #[track_caller]
    fn checked_dot_acc(&mut self, a: &[Fixed<T, A>], b: &[Fixed<T, B>]) -> Option<()> {
        const {
            assert!(
                F <= T::BITS,
                "precondition: the fraction F is at most the width"
            )
        };
        const {
            assert!(
                A <= T::BITS,
                "precondition: the fraction A is at most the width"
            )
        };
        const {
            assert!(
                B <= T::BITS,
                "precondition: the fraction B is at most the width"
            )
        };
        assert!(
            a.len() == b.len(),
            "precondition: both slices have the same length"
        );
        let mut sum = *self;
        for i in 0..a.len() {
            match sum.checked_add_prod(a[i], b[i]) {
                Some(next) => sum = next,
                None => return None,
            }
        }
        *self = sum;
        Some(())
    }
}
