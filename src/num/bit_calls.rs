// Made by `make package` of crates/fixed_num/src/bit_calls.rt, which is proved: changes go there.

//! Calls on the bits and bytes of a number. They are the bits and bytes of its word.

use crate::bits::BitWord;
use crate::num::format::Fixed;
use crate::word::{RawWord, SignedWord, UnsignedWord, Word};

impl<T: BitWord, const F: u32> Fixed<T, F> {
    /// Returns the number with each bit inverted.
    ///
    /// # Examples
    ///
    /// ```
    /// use zugyelmas::prelude::*;
    /// let bits = FixedU8::<4>::from_bits;
    ///
    /// assert_eq!(bits(0b0000_0101).const_not(), bits(0b1111_1010));
    /// ```
    ///
    /// # Proved
    ///
    /// ```text
    /// ensures { bit_list T.BITS (T.value result.bits)
    ///     ≡ complement (bit_list T.BITS (T.value self.bits)) }
    /// ```
    ///
    /// Definitions: [`bit_list`], [`complement`].
    ///
    /// [`bit_list`]: crate::definitions::bits_digits
    /// [`complement`]: crate::definitions::bits_digits
    #[must_use]
    pub fn const_not(self) -> Self {
        Fixed {
            bits: self.bits.not(),
        }
    }

    /// Returns the bitwise AND: a bit is 1 if it is 1 in both numbers.
    ///
    /// # Examples
    ///
    /// ```
    /// use zugyelmas::prelude::*;
    /// let bits = FixedU8::<4>::from_bits;
    ///
    /// assert_eq!(bits(0b1100).const_bitand(bits(0b1010)), bits(0b1000));
    /// ```
    ///
    /// # Proved
    ///
    /// ```text
    /// ensures { bit_list T.BITS (T.value result.bits)
    ///     ≡ zip_with min (bit_list T.BITS (T.value self.bits)) (bit_list T.BITS (T.value rhs.bits)) }
    /// ```
    ///
    /// Definitions: [`bit_list`], [`zip_with`].
    ///
    /// [`bit_list`]: crate::definitions::bits_digits
    /// [`zip_with`]: crate::definitions::bits_digits
    #[must_use]
    pub fn const_bitand(self, rhs: Self) -> Self {
        Fixed {
            bits: self.bits.and(rhs.bits),
        }
    }

    /// Returns the bitwise OR: a bit is 1 if it is 1 in either number.
    ///
    /// # Examples
    ///
    /// ```
    /// use zugyelmas::prelude::*;
    /// let bits = FixedU8::<4>::from_bits;
    ///
    /// assert_eq!(bits(0b1100).const_bitor(bits(0b1010)), bits(0b1110));
    /// ```
    ///
    /// # Proved
    ///
    /// ```text
    /// ensures { bit_list T.BITS (T.value result.bits)
    ///     ≡ zip_with max (bit_list T.BITS (T.value self.bits)) (bit_list T.BITS (T.value rhs.bits)) }
    /// ```
    ///
    /// Definitions: [`bit_list`], [`zip_with`].
    ///
    /// [`bit_list`]: crate::definitions::bits_digits
    /// [`zip_with`]: crate::definitions::bits_digits
    #[must_use]
    pub fn const_bitor(self, rhs: Self) -> Self {
        Fixed {
            bits: self.bits.or(rhs.bits),
        }
    }

    /// Returns the bitwise XOR: a bit is 1 if it differs between the numbers.
    ///
    /// # Examples
    ///
    /// ```
    /// use zugyelmas::prelude::*;
    /// let bits = FixedU8::<4>::from_bits;
    ///
    /// assert_eq!(bits(0b1100).const_bitxor(bits(0b1010)), bits(0b0110));
    /// ```
    ///
    /// # Proved
    ///
    /// ```text
    /// ensures { bit_list T.BITS (T.value result.bits)
    ///     ≡ zip_with differ (bit_list T.BITS (T.value self.bits)) (bit_list T.BITS (T.value rhs.bits)) }
    /// ```
    ///
    /// Definitions: [`bit_list`], [`differ`], [`zip_with`].
    ///
    /// [`bit_list`]: crate::definitions::bits_digits
    /// [`differ`]: crate::definitions::bits_digits
    /// [`zip_with`]: crate::definitions::bits_digits
    #[must_use]
    pub fn const_bitxor(self, rhs: Self) -> Self {
        Fixed {
            bits: self.bits.xor(rhs.bits),
        }
    }

    /// Returns the number with its bytes in the opposite order.
    ///
    /// # Examples
    ///
    /// ```
    /// use zugyelmas::prelude::*;
    /// let bits = FixedU8::<4>::from_bits;
    ///
    /// let number = FixedU16::<8>::from_bits(0x0180); // 1.5
    /// assert_eq!(number.swap_bytes().to_bits(), 0x8001);
    /// ```
    ///
    /// # Proved
    ///
    /// ```text
    /// ensures { byte_list T.BITS (T.value result.bits)
    ///     ≡ reverse (byte_list T.BITS (T.value self.bits)) }
    /// ```
    ///
    /// Definitions: [`byte_list`].
    ///
    /// [`byte_list`]: crate::definitions::bits_digits
    #[must_use]
    pub fn swap_bytes(self) -> Self {
        Fixed {
            bits: self.bits.swap_bytes(),
        }
    }

    /// Returns the number with its bits in the opposite order.
    ///
    /// # Examples
    ///
    /// ```
    /// use zugyelmas::prelude::*;
    /// let bits = FixedU8::<4>::from_bits;
    ///
    /// assert_eq!(bits(0b0000_0101).reverse_bits(), bits(0b1010_0000));
    /// ```
    ///
    /// # Proved
    ///
    /// ```text
    /// ensures { bit_list T.BITS (T.value result.bits)
    ///     ≡ reverse (bit_list T.BITS (T.value self.bits)) }
    /// ```
    ///
    /// Definitions: [`bit_list`].
    ///
    /// [`bit_list`]: crate::definitions::bits_digits
    #[must_use]
    pub fn reverse_bits(self) -> Self {
        Fixed {
            bits: self.bits.reverse_bits(),
        }
    }

    /// Returns the bytes, the most significant first.
    ///
    /// # Examples
    ///
    /// ```
    /// use zugyelmas::prelude::*;
    /// let bits = FixedU8::<4>::from_bits;
    ///
    /// let number = FixedU16::<8>::from_bits(0x0180); // 1.5
    /// assert_eq!(number.to_be_bytes(), [0x01, 0x80]);
    /// ```
    ///
    /// # Proved
    ///
    /// ```text
    /// ensures { T.as_list result ≡ reverse (byte_list T.BITS (T.value self.bits)) }
    /// ```
    ///
    /// Definitions: [`byte_list`].
    ///
    /// [`byte_list`]: crate::definitions::bits_digits
    #[must_use]
    pub fn to_be_bytes(self) -> T::Bytes {
        self.bits.to_be_bytes()
    }

    /// Returns the bytes, the least significant first.
    ///
    /// # Examples
    ///
    /// ```
    /// use zugyelmas::prelude::*;
    /// let bits = FixedU8::<4>::from_bits;
    ///
    /// let number = FixedU16::<8>::from_bits(0x0180); // 1.5
    /// assert_eq!(number.to_le_bytes(), [0x80, 0x01]);
    /// ```
    ///
    /// # Proved
    ///
    /// ```text
    /// ensures { T.as_list result ≡ byte_list T.BITS (T.value self.bits) }
    /// ```
    ///
    /// Definitions: [`byte_list`].
    ///
    /// [`byte_list`]: crate::definitions::bits_digits
    #[must_use]
    pub fn to_le_bytes(self) -> T::Bytes {
        self.bits.to_le_bytes()
    }

    /// Returns the number with these bytes, the most significant first.
    ///
    /// # Examples
    ///
    /// ```
    /// use zugyelmas::prelude::*;
    /// let bits = FixedU8::<4>::from_bits;
    ///
    /// let number = FixedU16::<8>::from_be_bytes([0x01, 0x80]);
    /// assert_eq!(number.to_bits(), 0x0180); // 1.5
    /// ```
    ///
    /// # Proved
    ///
    /// ```text
    /// ensures { reverse (byte_list T.BITS (T.value result.bits)) ≡ T.as_list bytes }
    /// ```
    ///
    /// Definitions: [`byte_list`].
    ///
    /// [`byte_list`]: crate::definitions::bits_digits
    #[must_use]
    pub fn from_be_bytes(bytes: T::Bytes) -> Self {
        Fixed {
            bits: T::from_be_bytes(bytes),
        }
    }

    /// Returns the number with these bytes, the least significant first.
    ///
    /// # Examples
    ///
    /// ```
    /// use zugyelmas::prelude::*;
    /// let bits = FixedU8::<4>::from_bits;
    ///
    /// let number = FixedU16::<8>::from_le_bytes([0x80, 0x01]);
    /// assert_eq!(number.to_bits(), 0x0180); // 1.5
    /// ```
    ///
    /// # Proved
    ///
    /// ```text
    /// ensures { byte_list T.BITS (T.value result.bits) ≡ T.as_list bytes }
    /// ```
    ///
    /// Definitions: [`byte_list`].
    ///
    /// [`byte_list`]: crate::definitions::bits_digits
    #[must_use]
    pub fn from_le_bytes(bytes: T::Bytes) -> Self {
        Fixed {
            bits: T::from_le_bytes(bytes),
        }
    }

    /// Returns how many bits are 1.
    ///
    /// # Examples
    ///
    /// ```
    /// use zugyelmas::prelude::*;
    /// let bits = FixedU8::<4>::from_bits;
    ///
    /// assert_eq!(bits(0b0101).count_ones(), 2);
    /// assert_eq!(FixedI8::<4>::from_bits(-1).count_ones(), 8); // -0.0625
    /// ```
    ///
    /// # Proved
    ///
    /// ```text
    /// ensures { result ≡ count_by (λ d. d == 1) (bit_list T.BITS (T.value self.bits)) }
    /// ```
    ///
    /// Definitions: [`bit_list`].
    ///
    /// [`bit_list`]: crate::definitions::bits_digits
    #[must_use]
    pub fn count_ones(self) -> u32 {
        self.bits.count_ones()
    }

    /// Returns how many bits are 0.
    ///
    /// # Examples
    ///
    /// ```
    /// use zugyelmas::prelude::*;
    /// let bits = FixedU8::<4>::from_bits;
    ///
    /// assert_eq!(bits(0b0101).count_zeros(), 6);
    /// ```
    ///
    /// # Proved
    ///
    /// ```text
    /// ensures { result ≡ count_by (λ d. d == 0) (bit_list T.BITS (T.value self.bits)) }
    /// ```
    ///
    /// Definitions: [`bit_list`].
    ///
    /// [`bit_list`]: crate::definitions::bits_digits
    #[must_use]
    pub fn count_zeros(self) -> u32 {
        self.bits.not().count_ones()
    }

    /// Returns how many of the most significant bits are 1, before the first that is 0.
    ///
    /// # Examples
    ///
    /// ```
    /// use zugyelmas::prelude::*;
    /// let bits = FixedU8::<4>::from_bits;
    ///
    /// assert_eq!(bits(0b1101_0000).leading_ones(), 2);
    /// assert_eq!(FixedU8::<4>::MAX.leading_ones(), 8);
    /// ```
    ///
    /// # Proved
    ///
    /// ```text
    /// ensures { result ≡ suffix_len (λ d. d == 1) (bit_list T.BITS (T.value self.bits)) }
    /// ```
    ///
    /// Definitions: [`bit_list`].
    ///
    /// [`bit_list`]: crate::definitions::bits_digits
    #[must_use]
    pub fn leading_ones(self) -> u32 {
        self.bits.not().leading_zeros()
    }

    /// Returns how many of the most significant bits are 0, before the first that is 1.
    ///
    /// # Examples
    ///
    /// ```
    /// use zugyelmas::prelude::*;
    /// let bits = FixedU8::<4>::from_bits;
    ///
    /// assert_eq!(bits(0b0000_0101).leading_zeros(), 5);
    /// assert_eq!(FixedU8::<4>::ZERO.leading_zeros(), 8);
    /// ```
    ///
    /// # Proved
    ///
    /// ```text
    /// ensures { result ≡ suffix_len (λ d. d == 0) (bit_list T.BITS (T.value self.bits)) }
    /// ```
    ///
    /// Definitions: [`bit_list`].
    ///
    /// [`bit_list`]: crate::definitions::bits_digits
    #[must_use]
    pub fn leading_zeros(self) -> u32 {
        self.bits.leading_zeros()
    }

    /// Returns how many of the least significant bits are 1, before the first that is 0.
    ///
    /// # Examples
    ///
    /// ```
    /// use zugyelmas::prelude::*;
    /// let bits = FixedU8::<4>::from_bits;
    ///
    /// assert_eq!(bits(0b0000_1011).trailing_ones(), 2);
    /// assert_eq!(FixedU8::<4>::MAX.trailing_ones(), 8);
    /// ```
    ///
    /// # Proved
    ///
    /// ```text
    /// ensures { result ≡ prefix_len (λ d. d == 1) (bit_list T.BITS (T.value self.bits)) }
    /// ```
    ///
    /// Definitions: [`bit_list`].
    ///
    /// [`bit_list`]: crate::definitions::bits_digits
    #[must_use]
    pub fn trailing_ones(self) -> u32 {
        self.bits.not().trailing_zeros()
    }

    /// Returns how many of the least significant bits are 0, before the first that is 1.
    ///
    /// # Examples
    ///
    /// ```
    /// use zugyelmas::prelude::*;
    /// let bits = FixedU8::<4>::from_bits;
    ///
    /// assert_eq!(bits(0b0000_0100).trailing_zeros(), 2);
    /// assert_eq!(FixedU8::<4>::ZERO.trailing_zeros(), 8);
    /// ```
    ///
    /// # Proved
    ///
    /// ```text
    /// ensures { result ≡ prefix_len (λ d. d == 0) (bit_list T.BITS (T.value self.bits)) }
    /// ```
    ///
    /// Definitions: [`bit_list`].
    ///
    /// [`bit_list`]: crate::definitions::bits_digits
    #[must_use]
    pub fn trailing_zeros(self) -> u32 {
        self.bits.trailing_zeros()
    }

    /// Returns the bits rotated left by `n`: bit i moves to position `i + n` modulo the width.
    ///
    /// # Examples
    ///
    /// ```
    /// use zugyelmas::prelude::*;
    /// let bits = FixedU8::<4>::from_bits;
    ///
    /// assert_eq!(bits(0b1000_0001).rotate_left(1), bits(0b0000_0011));
    /// assert_eq!(bits(0b1000_0001).rotate_left(9), bits(0b0000_0011)); // 9 is 1 modulo 8
    /// ```
    ///
    /// # Proved
    ///
    /// ```text
    /// ensures { IsRotated n (bit_list T.BITS (T.value self.bits))
    ///     (bit_list T.BITS (T.value result.bits)) }
    /// ```
    ///
    /// Definitions: [`bit_list`].
    ///
    /// [`bit_list`]: crate::definitions::bits_digits
    #[must_use]
    pub fn rotate_left(self, n: u32) -> Self {
        Fixed {
            bits: self.bits.rotate_left(n),
        }
    }

    /// Returns the bits rotated right by `n`: bit i moves to position `i - n` modulo the width. A rotation to the
    /// left by `n` restores the number.
    ///
    /// # Examples
    ///
    /// ```
    /// use zugyelmas::prelude::*;
    /// let bits = FixedU8::<4>::from_bits;
    ///
    /// assert_eq!(bits(0b0000_0011).rotate_right(1), bits(0b1000_0001));
    /// assert_eq!(bits(0b0000_0011).rotate_right(9), bits(0b1000_0001)); // 9 is 1 modulo 8
    /// ```
    ///
    /// # Proved
    ///
    /// ```text
    /// ensures { IsRotated n (bit_list T.BITS (T.value result.bits))
    ///     (bit_list T.BITS (T.value self.bits)) }
    /// ```
    ///
    /// Definitions: [`bit_list`].
    ///
    /// [`bit_list`]: crate::definitions::bits_digits
    #[must_use]
    pub fn rotate_right(self, n: u32) -> Self {
        Fixed {
            bits: self.bits.rotate_right(n),
        }
    }
}

impl<T: SignedWord, const F: u32> Fixed<T, F> {
    /// Returns the unsigned number with the same bit pattern.
    ///
    /// # Examples
    ///
    /// ```
    /// use zugyelmas::prelude::*;
    /// let bits = FixedU8::<4>::from_bits;
    ///
    /// assert_eq!(FixedI8::<4>::from_bits(24).cast_unsigned(), bits(24)); // 1.5
    /// // -1.5 becomes 14.5
    /// assert_eq!(FixedI8::<4>::from_bits(-24).cast_unsigned(), bits(232));
    /// ```
    ///
    /// # Proved
    ///
    /// ```text
    /// ensures value { T.Unsigned.value result.bits ≡ wrap false T.BITS (T.value self.bits) }
    /// ensures bits { bit_list T.BITS (T.Unsigned.value result.bits)
    ///     ≡ bit_list T.BITS (T.value self.bits) }
    /// ```
    ///
    /// Definitions: [`wrap`], [`bit_list`].
    ///
    /// [`wrap`]: crate::definitions::word_format
    /// [`bit_list`]: crate::definitions::bits_digits
    #[must_use]
    pub fn cast_unsigned(self) -> Fixed<T::Unsigned, F> {
        Fixed {
            bits: self.bits.to_unsigned(),
        }
    }
}

impl<T: UnsignedWord, const F: u32> Fixed<T, F> {
    /// Returns the signed number with the same bit pattern.
    ///
    /// # Examples
    ///
    /// ```
    /// use zugyelmas::prelude::*;
    /// let bits = FixedU8::<4>::from_bits;
    ///
    /// assert_eq!(bits(24).cast_signed(), FixedI8::from_bits(24)); // 1.5
    /// assert_eq!(bits(232).cast_signed(), FixedI8::from_bits(-24)); // 14.5 becomes -1.5
    /// ```
    ///
    /// # Proved
    ///
    /// ```text
    /// ensures value { T.Signed.value result.bits ≡ wrap true T.BITS (T.value self.bits) }
    /// ensures bits { bit_list T.BITS (T.Signed.value result.bits)
    ///     ≡ bit_list T.BITS (T.value self.bits) }
    /// ```
    ///
    /// Definitions: [`wrap`], [`bit_list`].
    ///
    /// [`wrap`]: crate::definitions::word_format
    /// [`bit_list`]: crate::definitions::bits_digits
    #[must_use]
    pub fn cast_signed(self) -> Fixed<T::Signed, F> {
        Fixed {
            bits: self.bits.to_signed(),
        }
    }
}
