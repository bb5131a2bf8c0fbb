// Made by `make package` of crates/fixed_num/src/bit_operators.rt, which is proved: changes go there.

//! The bitwise operators and shifts.
//!
//! The assigning forms store the same result.

use crate::bits::BitWord;
use crate::num::format::Fixed;
use crate::word::RawWord;
use core::ops::{
    BitAnd, BitAndAssign, BitOr, BitOrAssign, BitXor, BitXorAssign, Not, Shl, ShlAssign, Shr,
    ShrAssign,
};

impl<T: BitWord, const F: u32> Not for Fixed<T, F> {
    type Output = Self;

    /// Returns the number with each bit inverted.
    ///
    /// # Examples
    ///
    /// ```
    /// use zugyelmas::prelude::*;
    /// let bits = FixedU8::<4>::from_bits;
    ///
    /// assert_eq!(!bits(0b0000_0101), bits(0b1111_1010));
    /// ```
    ///
    /// # Proved
    ///
    /// ```text
    /// not_gives = { λ a r. bit_list T.BITS (T.value r.bits) ≡ complement (bit_list T.BITS (T.value a.bits)) }
    /// ```
    ///
    /// Definitions: [`bit_list`], [`complement`].
    ///
    /// [`bit_list`]: crate::definitions::bits_digits
    /// [`complement`]: crate::definitions::bits_digits
    fn not(self) -> Self {
        self.const_not()
    }
}

impl<T: BitWord, const F: u32> BitAnd for Fixed<T, F> {
    type Output = Self;

    /// Returns the bitwise AND: a bit is 1 if it is 1 in both numbers.
    ///
    /// # Examples
    ///
    /// ```
    /// use zugyelmas::prelude::*;
    /// let bits = FixedU8::<4>::from_bits;
    ///
    /// assert_eq!(bits(0b1100) & bits(0b1010), bits(0b1000));
    /// ```
    ///
    /// # Proved
    ///
    /// ```text
    /// bitand_gives = { λ a b r. bit_list T.BITS (T.value r.bits)
    ///     ≡ zip_with min (bit_list T.BITS (T.value a.bits)) (bit_list T.BITS (T.value b.bits)) }
    /// ```
    ///
    /// Definitions: [`bit_list`], [`zip_with`].
    ///
    /// [`bit_list`]: crate::definitions::bits_digits
    /// [`zip_with`]: crate::definitions::bits_digits
    fn bitand(self, rhs: Self) -> Self {
        self.const_bitand(rhs)
    }
}

impl<T: BitWord, const F: u32> BitAndAssign for Fixed<T, F> {
    /// Stores the result of `&`.
    ///
    /// # Examples
    ///
    /// ```
    /// use zugyelmas::prelude::*;
    /// let bits = FixedU8::<4>::from_bits;
    ///
    /// let mut number = bits(0b1100);
    /// number &= bits(0b1010);
    /// assert_eq!(number, bits(0b1000));
    /// ```
    ///
    /// # Proved
    ///
    /// ```text
    /// bitand_assign_gives = { λ a b r. bit_list T.BITS (T.value r.bits)
    ///     ≡ zip_with min (bit_list T.BITS (T.value a.bits)) (bit_list T.BITS (T.value b.bits)) }
    /// ```
    ///
    /// Definitions: [`bit_list`], [`zip_with`].
    ///
    /// [`bit_list`]: crate::definitions::bits_digits
    /// [`zip_with`]: crate::definitions::bits_digits
    fn bitand_assign(&mut self, rhs: Self) {
        *self = self.const_bitand(rhs);
    }
}

impl<T: BitWord, const F: u32> BitOr for Fixed<T, F> {
    type Output = Self;

    /// Returns the bitwise OR: a bit is 1 if it is 1 in either number.
    ///
    /// # Examples
    ///
    /// ```
    /// use zugyelmas::prelude::*;
    /// let bits = FixedU8::<4>::from_bits;
    ///
    /// assert_eq!(bits(0b1100) | bits(0b1010), bits(0b1110));
    /// ```
    ///
    /// # Proved
    ///
    /// ```text
    /// bitor_gives = { λ a b r. bit_list T.BITS (T.value r.bits)
    ///     ≡ zip_with max (bit_list T.BITS (T.value a.bits)) (bit_list T.BITS (T.value b.bits)) }
    /// ```
    ///
    /// Definitions: [`bit_list`], [`zip_with`].
    ///
    /// [`bit_list`]: crate::definitions::bits_digits
    /// [`zip_with`]: crate::definitions::bits_digits
    fn bitor(self, rhs: Self) -> Self {
        self.const_bitor(rhs)
    }
}

impl<T: BitWord, const F: u32> BitOrAssign for Fixed<T, F> {
    /// Stores the result of `|`.
    ///
    /// # Examples
    ///
    /// ```
    /// use zugyelmas::prelude::*;
    /// let bits = FixedU8::<4>::from_bits;
    ///
    /// let mut number = bits(0b1100);
    /// number |= bits(0b1010);
    /// assert_eq!(number, bits(0b1110));
    /// ```
    ///
    /// # Proved
    ///
    /// ```text
    /// bitor_assign_gives = { λ a b r. bit_list T.BITS (T.value r.bits)
    ///     ≡ zip_with max (bit_list T.BITS (T.value a.bits)) (bit_list T.BITS (T.value b.bits)) }
    /// ```
    ///
    /// Definitions: [`bit_list`], [`zip_with`].
    ///
    /// [`bit_list`]: crate::definitions::bits_digits
    /// [`zip_with`]: crate::definitions::bits_digits
    fn bitor_assign(&mut self, rhs: Self) {
        *self = self.const_bitor(rhs);
    }
}

impl<T: BitWord, const F: u32> BitXor for Fixed<T, F> {
    type Output = Self;

    /// Returns the bitwise XOR: a bit is 1 if it differs between the numbers.
    ///
    /// # Examples
    ///
    /// ```
    /// use zugyelmas::prelude::*;
    /// let bits = FixedU8::<4>::from_bits;
    ///
    /// assert_eq!(bits(0b1100) ^ bits(0b1010), bits(0b0110));
    /// ```
    ///
    /// # Proved
    ///
    /// ```text
    /// bitxor_gives = { λ a b r. bit_list T.BITS (T.value r.bits)
    ///     ≡ zip_with differ (bit_list T.BITS (T.value a.bits)) (bit_list T.BITS (T.value b.bits)) }
    /// ```
    ///
    /// Definitions: [`bit_list`], [`differ`], [`zip_with`].
    ///
    /// [`bit_list`]: crate::definitions::bits_digits
    /// [`differ`]: crate::definitions::bits_digits
    /// [`zip_with`]: crate::definitions::bits_digits
    fn bitxor(self, rhs: Self) -> Self {
        self.const_bitxor(rhs)
    }
}

impl<T: BitWord, const F: u32> BitXorAssign for Fixed<T, F> {
    /// Stores the result of `^`.
    ///
    /// # Examples
    ///
    /// ```
    /// use zugyelmas::prelude::*;
    /// let bits = FixedU8::<4>::from_bits;
    ///
    /// let mut number = bits(0b1100);
    /// number ^= bits(0b1010);
    /// assert_eq!(number, bits(0b0110));
    /// ```
    ///
    /// # Proved
    ///
    /// ```text
    /// bitxor_assign_gives = { λ a b r. bit_list T.BITS (T.value r.bits)
    ///     ≡ zip_with differ (bit_list T.BITS (T.value a.bits)) (bit_list T.BITS (T.value b.bits)) }
    /// ```
    ///
    /// Definitions: [`bit_list`], [`differ`], [`zip_with`].
    ///
    /// [`bit_list`]: crate::definitions::bits_digits
    /// [`differ`]: crate::definitions::bits_digits
    /// [`zip_with`]: crate::definitions::bits_digits
    fn bitxor_assign(&mut self, rhs: Self) {
        *self = self.const_bitxor(rhs);
    }
}

impl<T: BitWord, const F: u32> Shl<u32> for Fixed<T, F> {
    type Output = Self;

    /// Returns the bits shifted left by `rhs`; bits shifted out are lost. Precondition: `rhs` is below the width.
    ///
    /// # Examples
    ///
    /// ```
    /// use zugyelmas::prelude::*;
    /// type Number = FixedI8<4>; // from -8 to 7.9375
    /// let number = Number::from_num::<f64>;
    ///
    /// assert_eq!(number(1.5) << 2, number(6.0));
    /// assert_eq!(number(1.5) << 3, number(-4.0)); // 12 without the bits past the width
    /// ```
    ///
    /// ```should_panic
    /// # use zugyelmas::prelude::*;
    /// # type Number = FixedI8<4>; // from -8 to 7.9375
    /// # let number = Number::from_num::<f64>;
    /// # std::panic::set_hook(Box::new(|_| {}));
    /// let _ = number(1.5) << 8; // the shift is not below the width
    /// ```
    ///
    /// # Panics
    ///
    /// Panics unless the shift is below the width.
    ///
    /// # Proved
    ///
    /// ```text
    /// can_shl = { λ a by. by < T.BITS }
    /// shl_gives = { λ a by r. T.value r.bits ≡ wrap T.SIGNED T.BITS (T.value a.bits *ℤ pos (2 ^ by)) }
    /// ```
    ///
    /// Definitions: [`wrap`].
    ///
    /// [`wrap`]: crate::definitions::word_format
    #[track_caller]
    fn shl(self, rhs: u32) -> Self {
        assert!(rhs < T::BITS, "precondition: the shift is below the width");
        Fixed {
            bits: self.bits.shift_left(rhs),
        }
    }
}

impl<T: BitWord, const F: u32> ShlAssign<u32> for Fixed<T, F> {
    /// Stores the result of `<<`. Precondition: `rhs` is below the width.
    ///
    /// # Examples
    ///
    /// ```
    /// use zugyelmas::prelude::*;
    /// type Number = FixedI8<4>; // from -8 to 7.9375
    /// let number = Number::from_num::<f64>;
    ///
    /// let mut sum = number(1.5);
    /// sum <<= 2;
    /// assert_eq!(sum, number(6.0));
    /// ```
    ///
    /// # Panics
    ///
    /// Panics unless the shift is below the width.
    ///
    /// # Proved
    ///
    /// ```text
    /// can_shl_assign = { λ a by. by < T.BITS }
    /// shl_assign_gives = { λ a by r. T.value r.bits ≡ wrap T.SIGNED T.BITS (T.value a.bits *ℤ pos (2 ^ by)) }
    /// ```
    ///
    /// Definitions: [`wrap`].
    ///
    /// [`wrap`]: crate::definitions::word_format
    #[track_caller]
    fn shl_assign(&mut self, rhs: u32) {
        assert!(rhs < T::BITS, "precondition: the shift is below the width");
        *self = *self << rhs;
    }
}

impl<T: BitWord, const F: u32> Shr<u32> for Fixed<T, F> {
    type Output = Self;

    /// Returns the bits shifted right by `rhs`, rounded down. Precondition: `rhs` is below the width.
    ///
    /// # Examples
    ///
    /// ```
    /// use zugyelmas::prelude::*;
    /// type Number = FixedI8<4>; // from -8 to 7.9375
    /// let number = Number::from_num::<f64>;
    ///
    /// assert_eq!(number(1.5) >> 1, number(0.75));
    /// assert_eq!(number(-0.0625) >> 1, number(-0.0625)); // -0.03125, rounded down
    /// ```
    ///
    /// ```should_panic
    /// # use zugyelmas::prelude::*;
    /// # type Number = FixedI8<4>; // from -8 to 7.9375
    /// # let number = Number::from_num::<f64>;
    /// # std::panic::set_hook(Box::new(|_| {}));
    /// let _ = number(1.5) >> 8; // the shift is not below the width
    /// ```
    ///
    /// # Panics
    ///
    /// Panics unless the shift is below the width.
    ///
    /// # Proved
    ///
    /// ```text
    /// can_shr = { λ a by. by < T.BITS }
    /// shr_gives = { λ a by r. T.value r.bits ≡ floor_quotient (T.value a.bits) (2 ^ by) }
    /// ```
    ///
    /// Definitions: [`floor_quotient`].
    ///
    /// [`floor_quotient`]: crate::definitions::word_quotient
    #[track_caller]
    fn shr(self, rhs: u32) -> Self {
        assert!(rhs < T::BITS, "precondition: the shift is below the width");
        Fixed {
            bits: self.bits.shift_right(rhs),
        }
    }
}

impl<T: BitWord, const F: u32> ShrAssign<u32> for Fixed<T, F> {
    /// Stores the result of `>>`. Precondition: `rhs` is below the width.
    ///
    /// # Examples
    ///
    /// ```
    /// use zugyelmas::prelude::*;
    /// type Number = FixedI8<4>; // from -8 to 7.9375
    /// let number = Number::from_num::<f64>;
    ///
    /// let mut sum = number(1.5);
    /// sum >>= 1;
    /// assert_eq!(sum, number(0.75));
    /// ```
    ///
    /// # Panics
    ///
    /// Panics unless the shift is below the width.
    ///
    /// # Proved
    ///
    /// ```text
    /// can_shr_assign = { λ a by. by < T.BITS }
    /// shr_assign_gives = { λ a by r. T.value r.bits ≡ floor_quotient (T.value a.bits) (2 ^ by) }
    /// ```
    ///
    /// Definitions: [`floor_quotient`].
    ///
    /// [`floor_quotient`]: crate::definitions::word_quotient
    #[track_caller]
    fn shr_assign(&mut self, rhs: u32) {
        assert!(rhs < T::BITS, "precondition: the shift is below the width");
        *self = *self >> rhs;
    }
}
