// Made by `make package` of crates/fixed_ops/src/plain_products.rt, which is proved: changes go there.

//! The plain forms of multiply-add and of sums of products. The factors may have other fractions.

use crate::kernel::{add_prod_of, mul_add_of};
use crate::num::{Fixed, Held, Number, exact_number};
use crate::word::{RawWord, Word};

/// Multiply-add by a factor with G fraction bits. Precondition of each call: G is at most the width.
pub trait PlainMulAdd<const G: u32>: Number {
    /// Returns the product by `mul`, rounded down, plus `add`. Precondition: the sum fits. The product alone may be
    /// out of range.
    ///
    /// # Examples
    ///
    /// ```
    /// use zugyelmas::prelude::*;
    /// type Number = FixedI8<4>; // from -8 to 7.9375
    /// let number = Number::from_num::<f64>;
    ///
    /// assert_eq!(number(1.5).mul_add(number(2.0), number(0.5)), number(3.5));
    /// // the product alone does not fit
    /// assert_eq!(number(4.0).mul_add(number(2.0), number(-0.5)), number(7.5));
    /// // 1.5 * 1.25 + 0.5
    /// assert_eq!(number(1.5).mul_add(FixedI8::<6>::from_bits(80), number(0.5)), number(2.375));
    /// ```
    ///
    /// # Compile errors
    ///
    /// Compiles only if the fraction G is at most the width.
    ///
    /// # Panics
    ///
    /// With debug assertions, panics unless the number fits. Without them, the result is wrapped.
    ///
    /// # Proved
    ///
    /// ```text
    /// requires fraction { G ≤ Self.BITS }
    /// requires fits { InRange Self.SIGNED Self.BITS
    ///     (exact_mul_add (Self.number self) (Self.Bits.value mul.bits) (Self.number add) G) }
    /// ensures { Self.number result
    ///     ≡ exact_mul_add (Self.number self) (Self.Bits.value mul.bits) (Self.number add) G }
    /// ```
    ///
    /// Definitions: [`InRange`], [`exact_mul_add`].
    ///
    /// [`InRange`]: crate::definitions::word_format
    /// [`exact_mul_add`]: crate::definitions::kernel_rows
    #[must_use]
    fn mul_add(self, mul: Fixed<Self::Bits, G>, add: Self) -> Self;
}

impl<T: Word, const F: u32, const G: u32> PlainMulAdd<G> for Fixed<T, F> {
    #[track_caller]
    fn mul_add(self, mul: Fixed<T, G>, add: Self) -> Self {
        const {
            assert!(
                G <= T::BITS,
                "precondition: the fraction G is at most the width"
            )
        };
        exact_number(mul_add_of(self.bits, mul.bits, add.bits, G))
    }
}

/// Sums with a product of factors with A and B fraction bits. Precondition of each call: F, A and B are at most the
/// width.
pub trait PlainProducts<const A: u32, const B: u32>: Number {
    /// Returns the number plus the product of `a` and `b`, which is rounded down to the number's fraction bits.
    /// Precondition: the sum fits.
    ///
    /// # Examples
    ///
    /// ```
    /// use zugyelmas::prelude::*;
    /// type Number = FixedI8<4>; // from -8 to 7.9375
    /// let number = Number::from_num::<f64>;
    ///
    /// assert_eq!(number(0.5).add_prod(number(1.5), number(2.0)), number(3.5));
    /// // the product alone does not fit
    /// assert_eq!(number(-0.5).add_prod(number(4.0), number(2.0)), number(7.5));
    /// // 0.5 + 1.25 * 1.5
    /// assert_eq!(number(0.5).add_prod(FixedI8::<6>::from_bits(80), number(1.5)), number(2.375));
    /// ```
    ///
    /// # Compile errors
    ///
    /// Compiles only if the fraction F is at most the width, and the fraction A is at most the width, and the fraction B is at most the width.
    ///
    /// # Panics
    ///
    /// With debug assertions, panics unless the number fits. Without them, the result is wrapped.
    ///
    /// # Proved
    ///
    /// ```text
    /// requires fraction { Self.FRACTION ≤ Self.BITS }
    /// requires a { A ≤ Self.BITS }
    /// requires b { B ≤ Self.BITS }
    /// requires fits { InRange Self.SIGNED Self.BITS (exact_add_prod (Self.number self)
    ///     (Self.Bits.value a.bits) (Self.Bits.value b.bits) Self.FRACTION A B) }
    /// ensures { Self.number result ≡ exact_add_prod (Self.number self)
    ///     (Self.Bits.value a.bits) (Self.Bits.value b.bits) Self.FRACTION A B }
    /// ```
    ///
    /// Definitions: [`InRange`], [`exact_add_prod`].
    ///
    /// [`InRange`]: crate::definitions::word_format
    /// [`exact_add_prod`]: crate::definitions::kernel_rows
    #[must_use]
    fn add_prod(self, a: Fixed<Self::Bits, A>, b: Fixed<Self::Bits, B>) -> Self;

    /// Stores the result of `add_prod` in the number. Precondition: the result fits.
    ///
    /// # Examples
    ///
    /// ```
    /// use zugyelmas::prelude::*;
    /// let number = FixedI8::<4>::from_num::<f64>;
    ///
    /// let mut sum = number(0.5);
    /// sum.mul_acc(number(1.5), number(2.0));
    /// assert_eq!(sum, number(3.5));
    /// sum.mul_acc(FixedI8::<6>::from_bits(80), number(2.0)); // 1.25 with 6 fraction bits
    /// assert_eq!(sum, number(6.0));
    /// ```
    ///
    /// # Compile errors
    ///
    /// Compiles only if the fraction F is at most the width, and the fraction A is at most the width, and the fraction B is at most the width.
    ///
    /// # Panics
    ///
    /// With debug assertions, panics unless the number fits. Without them, the result is wrapped.
    ///
    /// # Proved
    ///
    /// ```text
    /// requires fraction { Self.FRACTION ≤ Self.BITS }
    /// requires a { A ≤ Self.BITS }
    /// requires b { B ≤ Self.BITS }
    /// requires fits { InRange Self.SIGNED Self.BITS (exact_add_prod (Self.number self.old)
    ///     (Self.Bits.value a.bits) (Self.Bits.value b.bits) Self.FRACTION A B) }
    /// ensures { Self.number self.new ≡ exact_add_prod (Self.number self.old)
    ///     (Self.Bits.value a.bits) (Self.Bits.value b.bits) Self.FRACTION A B }
    /// ```
    ///
    /// Definitions: [`InRange`], [`exact_add_prod`].
    ///
    /// [`InRange`]: crate::definitions::word_format
    /// [`exact_add_prod`]: crate::definitions::kernel_rows
    fn mul_acc(&mut self, a: Fixed<Self::Bits, A>, b: Fixed<Self::Bits, B>);
}

impl<T: Word, const F: u32, const A: u32, const B: u32> PlainProducts<A, B> for Fixed<T, F> {
    #[track_caller]
    fn add_prod(self, a: Fixed<T, A>, b: Fixed<T, B>) -> Self {
        const {
            assert!(
                F <= T::BITS,
                "precondition: the fraction F is at most the width"
            )
        };
        const {
            assert!(
                A <= T::BITS,
                "precondition: the fraction A is at most the width"
            )
        };
        const {
            assert!(
                B <= T::BITS,
                "precondition: the fraction B is at most the width"
            )
        };
        exact_number(add_prod_of(self.bits, a.bits, b.bits, F, A, B))
    }

    #[track_caller]
    fn mul_acc(&mut self, a: Fixed<T, A>, b: Fixed<T, B>) {
        const {
            assert!(
                F <= T::BITS,
                "precondition: the fraction F is at most the width"
            )
        };
        const {
            assert!(
                A <= T::BITS,
                "precondition: the fraction A is at most the width"
            )
        };
        const {
            assert!(
                B <= T::BITS,
                "precondition: the fraction B is at most the width"
            )
        };
        *self = self.add_prod(a, b);
    }
}
