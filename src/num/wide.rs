// Made by `make package` of crates/fixed_num/src/wide.rt, which is proved: changes go there.

//! Products and quotients in a word of twice the width.

use crate::num::format::Fixed;
use crate::word::{Narrow, RawWord, SignedWord, UnsignedWord, Valued, Word};

/// Returns the product of two words, wrapped to a third.
fn product<A: RawWord, B: RawWord, R: RawWord>(a: A, b: B) -> R {
    let magnitude = a.magnitude() as u128 * b.magnitude() as u128;
    R::residue(a.is_below_zero() != b.is_below_zero(), magnitude)
}

/// Returns `a 2^by / b`, rounded toward zero and wrapped to a third word.
fn quotient<A: RawWord, B: RawWord, R: RawWord>(a: A, b: B, by: u32) -> R {
    let magnitude = ((a.magnitude() as u128) << by) / b.magnitude() as u128;
    R::residue(a.is_below_zero() != b.is_below_zero(), magnitude)
}

impl<T: Narrow, const F: u32> Fixed<T, F> {
    /// Returns the exact product, which always fits. Preconditions: F and G are at most the width, and H is their
    /// sum.
    ///
    /// # Examples
    ///
    /// ```
    /// use zugyelmas::prelude::*;
    /// let number = FixedI8::<4>::from_num::<f64>; // from -8 to 7.9375
    /// let unsigned = FixedU8::<4>::from_num::<f64>; // from 0 to 15.9375
    ///
    /// let product: FixedI16<8> = number(1.5).wide_mul(number(2.25));
    /// assert_eq!(product, FixedI16::from_num(3.375));
    /// let square: FixedI16<8> = FixedI8::<4>::MIN.wide_mul(FixedI8::<4>::MIN);
    /// assert_eq!(square, FixedI16::from_num(64.0));
    /// ```
    ///
    /// # Compile errors
    ///
    /// Compiles only if the fraction F is at most the width, and the fraction G is at most the width, and H is F + G.
    ///
    /// # Proved
    ///
    /// ```text
    /// requires f { F ≤ T.BITS }
    /// requires g { G ≤ T.BITS }
    /// requires h { H ≡ F + G }
    /// ensures { T.Double.value result.bits ≡ T.value self.bits *ℤ T.value rhs.bits }
    /// ```
    #[track_caller]
    #[must_use]
    pub fn wide_mul<const G: u32, const H: u32>(self, rhs: Fixed<T, G>) -> Fixed<T::Double, H> {
        const {
            assert!(
                F <= T::BITS,
                "precondition: the fraction F is at most the width"
            )
        };
        const {
            assert!(
                G <= T::BITS,
                "precondition: the fraction G is at most the width"
            )
        };
        const { assert!(H == F + G, "precondition: H is F + G") };
        Fixed {
            bits: product(self.bits, rhs.bits),
        }
    }

    /// Returns the quotient, rounded toward zero: its bits are `a 2^n / b`, where n is the width of the operands.
    /// Preconditions: each fraction is at most the width of its word, H + G is n + F, and the divisor is not 0. For
    /// signed numbers, the quotient is not that of `MIN` by bits -1.
    ///
    /// # Examples
    ///
    /// ```
    /// use zugyelmas::prelude::*;
    /// let number = FixedI8::<4>::from_num::<f64>; // from -8 to 7.9375
    /// let unsigned = FixedU8::<4>::from_num::<f64>; // from 0 to 15.9375
    ///
    /// let quotient: FixedI16<8> = number(1.5).wide_div(number(-3.0));
    /// assert_eq!(quotient, FixedI16::from_num(-0.5));
    /// ```
    ///
    /// ```should_panic
    /// # use zugyelmas::prelude::*;
    /// # let number = FixedI8::<4>::from_num::<f64>; // from -8 to 7.9375
    /// # let unsigned = FixedU8::<4>::from_num::<f64>; // from 0 to 15.9375
    /// # std::panic::set_hook(Box::new(|_| {}));
    /// number(1.5).wide_div::<4, 8>(number(0.0)); // the divisor is 0
    /// ```
    ///
    /// # Compile errors
    ///
    /// Compiles only if the fraction F is at most the width, and the fraction G is at most the width, and the fraction H is at most twice the width, and H + G is the width and F.
    ///
    /// # Panics
    ///
    /// Panics unless the divisor is not 0, and the quotient fits.
    ///
    /// # Proved
    ///
    /// ```text
    /// requires f { F ≤ T.BITS }
    /// requires g { G ≤ T.BITS }
    /// requires h { H ≤ 2 * T.BITS }
    /// requires place { H + G ≡ T.BITS + F }
    /// requires divisor { T.value rhs.bits ≢ pos 0 }
    /// requires fits { T.SIGNED ≡ true → T.value rhs.bits ≡ negsuc 0
    ///     → T.value self.bits ≢ lowest T.SIGNED T.BITS }
    /// ensures { T.Double.value result.bits
    ///     ≡ truncated_quotient (T.value self.bits *ℤ pos (2 ^ T.BITS)) (T.value rhs.bits) }
    /// ```
    ///
    /// Definitions: [`lowest`], [`truncated_quotient`].
    ///
    /// [`lowest`]: crate::definitions::word_format
    /// [`truncated_quotient`]: crate::definitions::word_quotient
    #[track_caller]
    #[must_use]
    pub fn wide_div<const G: u32, const H: u32>(self, rhs: Fixed<T, G>) -> Fixed<T::Double, H> {
        const {
            assert!(
                F <= T::BITS,
                "precondition: the fraction F is at most the width"
            )
        };
        const {
            assert!(
                G <= T::BITS,
                "precondition: the fraction G is at most the width"
            )
        };
        const {
            assert!(
                H <= 2 * T::BITS,
                "precondition: the fraction H is at most twice the width"
            )
        };
        const {
            assert!(
                H + G == T::BITS + F,
                "precondition: H + G is the width and F"
            )
        };
        assert!(rhs.bits != T::ZERO, "precondition: the divisor is not 0");
        assert!(
            !T::SIGNED || self.bits != T::MIN || rhs.bits != T::residue(true, 1),
            "precondition: the quotient fits"
        );
        Fixed {
            bits: quotient(self.bits, rhs.bits, T::BITS),
        }
    }
}

impl<T: SignedWord + Narrow, const F: u32> Fixed<T, F> {
    /// Returns the exact product by an unsigned number, which always fits. Preconditions: F and G are at most the
    /// width, and H is their sum.
    ///
    /// # Examples
    ///
    /// ```
    /// use zugyelmas::prelude::*;
    /// let number = FixedI8::<4>::from_num::<f64>; // from -8 to 7.9375
    /// let unsigned = FixedU8::<4>::from_num::<f64>; // from 0 to 15.9375
    ///
    /// let product: FixedI16<8> = number(-1.5).wide_mul_unsigned(unsigned(2.25));
    /// assert_eq!(product, FixedI16::from_num(-3.375));
    /// ```
    ///
    /// # Compile errors
    ///
    /// Compiles only if the fraction F is at most the width, and the fraction G is at most the width, and H is F + G.
    ///
    /// # Proved
    ///
    /// ```text
    /// requires f { F ≤ T.BITS }
    /// requires g { G ≤ T.BITS }
    /// requires h { H ≡ F + G }
    /// ensures { T.Double.value result.bits ≡ T.value self.bits *ℤ T.Unsigned.value rhs.bits }
    /// ```
    #[track_caller]
    #[must_use]
    pub fn wide_mul_unsigned<const G: u32, const H: u32>(
        self,
        rhs: Fixed<T::Unsigned, G>,
    ) -> Fixed<T::Double, H> {
        const {
            assert!(
                F <= T::BITS,
                "precondition: the fraction F is at most the width"
            )
        };
        const {
            assert!(
                G <= T::BITS,
                "precondition: the fraction G is at most the width"
            )
        };
        const { assert!(H == F + G, "precondition: H is F + G") };
        Fixed {
            bits: product(self.bits, rhs.bits),
        }
    }

    /// Returns the quotient, rounded toward zero, with one fraction bit less than `wide_div`. Its bits are
    /// `a 2^(n-1) / b`, where n is the width of the operands. It always fits. Preconditions: each fraction is at most
    /// the width of its word, H + G + 1 is n + F, and the divisor is not 0.
    ///
    /// # Examples
    ///
    /// ```
    /// use zugyelmas::prelude::*;
    /// let number = FixedI8::<4>::from_num::<f64>; // from -8 to 7.9375
    /// let unsigned = FixedU8::<4>::from_num::<f64>; // from 0 to 15.9375
    ///
    /// let quotient: FixedI16<7> = number(1.5).wide_sdiv(number(-3.0));
    /// assert_eq!(quotient, FixedI16::from_num(-0.5));
    /// let greatest: FixedI16<7> = FixedI8::<4>::MIN.wide_sdiv(number(-0.0625));
    /// assert_eq!(greatest, FixedI16::from_num(128.0));
    /// ```
    ///
    /// ```should_panic
    /// # use zugyelmas::prelude::*;
    /// # let number = FixedI8::<4>::from_num::<f64>; // from -8 to 7.9375
    /// # let unsigned = FixedU8::<4>::from_num::<f64>; // from 0 to 15.9375
    /// # std::panic::set_hook(Box::new(|_| {}));
    /// number(1.5).wide_sdiv::<4, 7>(number(0.0)); // the divisor is 0
    /// ```
    ///
    /// # Compile errors
    ///
    /// Compiles only if the fraction F is at most the width, and the fraction G is at most the width, and the fraction H is at most twice the width, and H + G + 1 is the width and F.
    ///
    /// # Panics
    ///
    /// Panics unless the divisor is not 0.
    ///
    /// # Proved
    ///
    /// ```text
    /// requires f { F ≤ T.BITS }
    /// requires g { G ≤ T.BITS }
    /// requires h { H ≤ 2 * T.BITS }
    /// requires place { H + G + 1 ≡ T.BITS + F }
    /// requires divisor { T.value rhs.bits ≢ pos 0 }
    /// ensures { T.Double.value result.bits
    ///     ≡ truncated_quotient (T.value self.bits *ℤ pos (2 ^ (T.BITS - 1))) (T.value rhs.bits) }
    /// ```
    ///
    /// Definitions: [`truncated_quotient`].
    ///
    /// [`truncated_quotient`]: crate::definitions::word_quotient
    #[track_caller]
    #[must_use]
    pub fn wide_sdiv<const G: u32, const H: u32>(self, rhs: Fixed<T, G>) -> Fixed<T::Double, H> {
        const {
            assert!(
                F <= T::BITS,
                "precondition: the fraction F is at most the width"
            )
        };
        const {
            assert!(
                G <= T::BITS,
                "precondition: the fraction G is at most the width"
            )
        };
        const {
            assert!(
                H <= 2 * T::BITS,
                "precondition: the fraction H is at most twice the width"
            )
        };
        const {
            assert!(
                H + G + 1 == T::BITS + F,
                "precondition: H + G + 1 is the width and F"
            )
        };
        assert!(rhs.bits != T::ZERO, "precondition: the divisor is not 0");
        Fixed {
            bits: quotient(self.bits, rhs.bits, T::BITS - 1),
        }
    }

    /// Returns the quotient by an unsigned number, rounded toward zero: its bits are `a 2^n / b`, where n is the
    /// width of the operands. It always fits. Preconditions: each fraction is at most the width of its word, H + G is
    /// n + F, and the divisor is not 0.
    ///
    /// # Examples
    ///
    /// ```
    /// use zugyelmas::prelude::*;
    /// let number = FixedI8::<4>::from_num::<f64>; // from -8 to 7.9375
    /// let unsigned = FixedU8::<4>::from_num::<f64>; // from 0 to 15.9375
    ///
    /// let quotient: FixedI16<8> = number(-1.5).wide_div_unsigned(unsigned(3.0));
    /// assert_eq!(quotient, FixedI16::from_num(-0.5));
    /// ```
    ///
    /// ```should_panic
    /// # use zugyelmas::prelude::*;
    /// # let number = FixedI8::<4>::from_num::<f64>; // from -8 to 7.9375
    /// # let unsigned = FixedU8::<4>::from_num::<f64>; // from 0 to 15.9375
    /// # std::panic::set_hook(Box::new(|_| {}));
    /// number(1.5).wide_div_unsigned::<4, 8>(unsigned(0.0)); // the divisor is 0
    /// ```
    ///
    /// # Compile errors
    ///
    /// Compiles only if the fraction F is at most the width, and the fraction G is at most the width, and the fraction H is at most twice the width, and H + G is the width and F.
    ///
    /// # Panics
    ///
    /// Panics unless the divisor is not 0.
    ///
    /// # Proved
    ///
    /// ```text
    /// requires f { F ≤ T.BITS }
    /// requires g { G ≤ T.BITS }
    /// requires h { H ≤ 2 * T.BITS }
    /// requires place { H + G ≡ T.BITS + F }
    /// requires divisor { T.Unsigned.value rhs.bits ≢ pos 0 }
    /// ensures { T.Double.value result.bits
    ///     ≡ truncated_quotient (T.value self.bits *ℤ pos (2 ^ T.BITS)) (T.Unsigned.value rhs.bits) }
    /// ```
    ///
    /// Definitions: [`truncated_quotient`].
    ///
    /// [`truncated_quotient`]: crate::definitions::word_quotient
    #[track_caller]
    #[must_use]
    pub fn wide_div_unsigned<const G: u32, const H: u32>(
        self,
        rhs: Fixed<T::Unsigned, G>,
    ) -> Fixed<T::Double, H> {
        const {
            assert!(
                F <= T::BITS,
                "precondition: the fraction F is at most the width"
            )
        };
        const {
            assert!(
                G <= T::BITS,
                "precondition: the fraction G is at most the width"
            )
        };
        const {
            assert!(
                H <= 2 * T::BITS,
                "precondition: the fraction H is at most twice the width"
            )
        };
        const {
            assert!(
                H + G == T::BITS + F,
                "precondition: H + G is the width and F"
            )
        };
        assert!(
            rhs.bits.magnitude() != 0,
            "precondition: the divisor is not 0"
        );
        Fixed {
            bits: quotient(self.bits, rhs.bits, T::BITS),
        }
    }
}

impl<T: UnsignedWord + Narrow, const F: u32> Fixed<T, F> {
    /// Returns the exact product by a signed number, which always fits. Preconditions: F and G are at most the width,
    /// and H is their sum.
    ///
    /// # Examples
    ///
    /// ```
    /// use zugyelmas::prelude::*;
    /// let number = FixedI8::<4>::from_num::<f64>; // from -8 to 7.9375
    /// let unsigned = FixedU8::<4>::from_num::<f64>; // from 0 to 15.9375
    ///
    /// let product: FixedI16<8> = unsigned(2.25).wide_mul_signed(number(-1.5));
    /// assert_eq!(product, FixedI16::from_num(-3.375));
    /// ```
    ///
    /// # Compile errors
    ///
    /// Compiles only if the fraction F is at most the width, and the fraction G is at most the width, and H is F + G.
    ///
    /// # Proved
    ///
    /// ```text
    /// requires f { F ≤ T.BITS }
    /// requires g { G ≤ T.BITS }
    /// requires h { H ≡ F + G }
    /// ensures { T.Double.Signed.value result.bits ≡ T.value self.bits *ℤ T.Signed.value rhs.bits }
    /// ```
    #[track_caller]
    #[must_use]
    pub fn wide_mul_signed<const G: u32, const H: u32>(
        self,
        rhs: Fixed<T::Signed, G>,
    ) -> Fixed<<T::Double as Word>::Signed, H> {
        const {
            assert!(
                F <= T::BITS,
                "precondition: the fraction F is at most the width"
            )
        };
        const {
            assert!(
                G <= T::BITS,
                "precondition: the fraction G is at most the width"
            )
        };
        const { assert!(H == F + G, "precondition: H is F + G") };
        Fixed {
            bits: product(self.bits, rhs.bits),
        }
    }

    /// Returns the quotient by a signed number, rounded toward zero: its bits are `a 2^(n-1) / b`, where n is the
    /// width of the operands. It always fits. Preconditions: each fraction is at most the width of its word, H + G +
    /// 1 is n + F, and the divisor is not 0.
    ///
    /// # Examples
    ///
    /// ```
    /// use zugyelmas::prelude::*;
    /// let number = FixedI8::<4>::from_num::<f64>; // from -8 to 7.9375
    /// let unsigned = FixedU8::<4>::from_num::<f64>; // from 0 to 15.9375
    ///
    /// let quotient: FixedI16<7> = unsigned(1.5).wide_sdiv_signed(number(-3.0));
    /// assert_eq!(quotient, FixedI16::from_num(-0.5));
    /// ```
    ///
    /// ```should_panic
    /// # use zugyelmas::prelude::*;
    /// # let number = FixedI8::<4>::from_num::<f64>; // from -8 to 7.9375
    /// # let unsigned = FixedU8::<4>::from_num::<f64>; // from 0 to 15.9375
    /// # std::panic::set_hook(Box::new(|_| {}));
    /// unsigned(1.5).wide_sdiv_signed::<4, 7>(number(0.0)); // the divisor is 0
    /// ```
    ///
    /// # Compile errors
    ///
    /// Compiles only if the fraction F is at most the width, and the fraction G is at most the width, and the fraction H is at most twice the width, and H + G + 1 is the width and F.
    ///
    /// # Panics
    ///
    /// Panics unless the divisor is not 0.
    ///
    /// # Proved
    ///
    /// ```text
    /// requires f { F ≤ T.BITS }
    /// requires g { G ≤ T.BITS }
    /// requires h { H ≤ 2 * T.BITS }
    /// requires place { H + G + 1 ≡ T.BITS + F }
    /// requires divisor { T.Signed.value rhs.bits ≢ pos 0 }
    /// ensures { T.Double.Signed.value result.bits
    ///     ≡ truncated_quotient (T.value self.bits *ℤ pos (2 ^ (T.BITS - 1))) (T.Signed.value rhs.bits) }
    /// ```
    ///
    /// Definitions: [`truncated_quotient`].
    ///
    /// [`truncated_quotient`]: crate::definitions::word_quotient
    #[track_caller]
    #[must_use]
    pub fn wide_sdiv_signed<const G: u32, const H: u32>(
        self,
        rhs: Fixed<T::Signed, G>,
    ) -> Fixed<<T::Double as Word>::Signed, H> {
        const {
            assert!(
                F <= T::BITS,
                "precondition: the fraction F is at most the width"
            )
        };
        const {
            assert!(
                G <= T::BITS,
                "precondition: the fraction G is at most the width"
            )
        };
        const {
            assert!(
                H <= 2 * T::BITS,
                "precondition: the fraction H is at most twice the width"
            )
        };
        const {
            assert!(
                H + G + 1 == T::BITS + F,
                "precondition: H + G + 1 is the width and F"
            )
        };
        assert!(
            rhs.bits.magnitude() != 0,
            "precondition: the divisor is not 0"
        );
        Fixed {
            bits: quotient(self.bits, rhs.bits, T::BITS - 1),
        }
    }
}
