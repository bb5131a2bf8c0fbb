// Made by `make package` of crates/fixed_bits/src/bit_word.rt, which is proved: changes go there.

//! Calls on the bits and bytes of a word.

use crate::bits::pattern::{pattern_of, rotated, word_of};
use crate::word::{Arithmetic, Integer, RawWord, Valued, Word};

/// A word of n bits, seen as its bit list of n digits 0 or 1, and as its byte list of n/8 digits from 0 to 255. Both
/// lists have the least significant digit first. The calls are those of std with the same names; `and`, `or`, `xor`,
/// `shift_left` and `shift_right` are the operators of std. (The crate `fixed` does not have this trait.)
pub trait BitWord: Word {
    /// The array of n/8 bytes.
    type Bytes: Copy;

    /// Returns the word with each bit inverted.
    ///
    /// # Examples
    ///
    /// ```
    /// use zugyelmas::bits::BitWord;
    ///
    /// assert_eq!(0b0000_0101_u8.not(), 0b1111_1010);
    /// assert_eq!(0_i8.not(), -1);
    /// ```
    ///
    /// # Proved
    ///
    /// ```text
    /// ensures { bit_list Self.BITS (Self.value result)
    ///     ≡ complement (bit_list Self.BITS (Self.value self)) }
    /// ```
    ///
    /// Definitions: [`bit_list`], [`complement`].
    ///
    /// [`bit_list`]: crate::definitions::bits_digits
    /// [`complement`]: crate::definitions::bits_digits
    #[must_use]
    fn not(self) -> Self {
        word_of(!pattern_of(self) as u128)
    }

    /// Returns the bitwise AND: a bit is 1 if it is 1 in both words.
    ///
    /// # Examples
    ///
    /// ```
    /// use zugyelmas::bits::BitWord;
    ///
    /// assert_eq!(0b1100_u8.and(0b1010), 0b1000);
    /// ```
    ///
    /// # Proved
    ///
    /// ```text
    /// ensures { bit_list Self.BITS (Self.value result)
    ///     ≡ zip_with min (bit_list Self.BITS (Self.value self)) (bit_list Self.BITS (Self.value other)) }
    /// ```
    ///
    /// Definitions: [`bit_list`], [`zip_with`].
    ///
    /// [`bit_list`]: crate::definitions::bits_digits
    /// [`zip_with`]: crate::definitions::bits_digits
    #[must_use]
    fn and(self, other: Self) -> Self {
        word_of(pattern_of(self) as u128 & pattern_of(other) as u128)
    }

    /// Returns the bitwise OR: a bit is 1 if it is 1 in either word.
    ///
    /// # Examples
    ///
    /// ```
    /// use zugyelmas::bits::BitWord;
    ///
    /// assert_eq!(0b1100_u8.or(0b1010), 0b1110);
    /// ```
    ///
    /// # Proved
    ///
    /// ```text
    /// ensures { bit_list Self.BITS (Self.value result)
    ///     ≡ zip_with max (bit_list Self.BITS (Self.value self)) (bit_list Self.BITS (Self.value other)) }
    /// ```
    ///
    /// Definitions: [`bit_list`], [`zip_with`].
    ///
    /// [`bit_list`]: crate::definitions::bits_digits
    /// [`zip_with`]: crate::definitions::bits_digits
    #[must_use]
    fn or(self, other: Self) -> Self {
        word_of(pattern_of(self) as u128 | pattern_of(other) as u128)
    }

    /// Returns the bitwise XOR: a bit is 1 if it differs between the words.
    ///
    /// # Examples
    ///
    /// ```
    /// use zugyelmas::bits::BitWord;
    ///
    /// assert_eq!(0b1100_u8.xor(0b1010), 0b0110);
    /// ```
    ///
    /// # Proved
    ///
    /// ```text
    /// ensures { bit_list Self.BITS (Self.value result)
    ///     ≡ zip_with differ (bit_list Self.BITS (Self.value self))
    ///     (bit_list Self.BITS (Self.value other)) }
    /// ```
    ///
    /// Definitions: [`bit_list`], [`differ`], [`zip_with`].
    ///
    /// [`bit_list`]: crate::definitions::bits_digits
    /// [`differ`]: crate::definitions::bits_digits
    /// [`zip_with`]: crate::definitions::bits_digits
    #[must_use]
    fn xor(self, other: Self) -> Self {
        word_of(pattern_of(self) as u128 ^ pattern_of(other) as u128)
    }

    /// Returns the bits shifted left by `by`; bits shifted out are lost. Precondition: `by` is below n.
    ///
    /// # Examples
    ///
    /// ```
    /// use zugyelmas::bits::BitWord;
    ///
    /// assert_eq!((-5_i8).shift_left(2), -20);
    /// assert_eq!(100_i8.shift_left(1), -56); // 200 - 256
    /// ```
    ///
    /// ```should_panic
    /// # use zugyelmas::bits::BitWord;
    /// # std::panic::set_hook(Box::new(|_| {}));
    /// 5_i8.shift_left(8); // the shift is not below the width
    /// ```
    ///
    /// # Panics
    ///
    /// Panics unless the shift is below the width.
    ///
    /// # Proved
    ///
    /// ```text
    /// requires { by < Self.BITS }
    /// ensures { Self.value result ≡ wrap Self.SIGNED Self.BITS (Self.value self *ℤ pos (2 ^ by)) }
    /// ```
    ///
    /// Definitions: [`wrap`].
    ///
    /// [`wrap`]: crate::definitions::word_format
    #[track_caller]
    #[must_use]
    fn shift_left(self, by: u32) -> Self {
        assert!(
            by < Self::BITS,
            "precondition: the shift is below the width"
        );
        Self::cut(self.whole().scaled(by))
    }

    /// Returns the value over `2^by`, rounded down. Precondition: `by` is below n.
    ///
    /// # Examples
    ///
    /// ```
    /// use zugyelmas::bits::BitWord;
    ///
    /// assert_eq!(20_i8.shift_right(2), 5);
    /// assert_eq!((-5_i8).shift_right(1), -3); // -2.5, rounded down
    /// ```
    ///
    /// ```should_panic
    /// # use zugyelmas::bits::BitWord;
    /// # std::panic::set_hook(Box::new(|_| {}));
    /// 5_i8.shift_right(8); // the shift is not below the width
    /// ```
    ///
    /// # Panics
    ///
    /// Panics unless the shift is below the width.
    ///
    /// # Proved
    ///
    /// ```text
    /// requires { by < Self.BITS }
    /// ensures { Self.value result ≡ floor_quotient (Self.value self) (2 ^ by) }
    /// ```
    ///
    /// Definitions: [`floor_quotient`].
    ///
    /// [`floor_quotient`]: crate::definitions::word_quotient
    #[track_caller]
    #[must_use]
    fn shift_right(self, by: u32) -> Self {
        assert!(
            by < Self::BITS,
            "precondition: the shift is below the width"
        );
        Self::cut(self.whole().floored(by))
    }

    /// Returns the bits rotated left: bit i moves to position `i + by` modulo n.
    ///
    /// # Examples
    ///
    /// ```
    /// use zugyelmas::bits::BitWord;
    ///
    /// assert_eq!(BitWord::rotate_left(0b1000_0001_u8, 1), 0b0000_0011);
    /// assert_eq!(BitWord::rotate_left(0b1000_0001_u8, 9), 0b0000_0011); // 9 is 1 modulo 8
    /// ```
    ///
    /// # Proved
    ///
    /// ```text
    /// ensures { IsRotated by (bit_list Self.BITS (Self.value self))
    ///     (bit_list Self.BITS (Self.value result)) }
    /// ```
    ///
    /// Definitions: [`bit_list`].
    ///
    /// [`bit_list`]: crate::definitions::bits_digits
    #[must_use]
    fn rotate_left(self, by: u32) -> Self {
        let width = Self::BITS;
        word_of(rotated(pattern_of(self), by % width, width))
    }

    /// Returns the bits rotated right: bit i moves to position `i - by` modulo n. A rotation to the left by `by`
    /// restores the word.
    ///
    /// # Examples
    ///
    /// ```
    /// use zugyelmas::bits::BitWord;
    ///
    /// assert_eq!(BitWord::rotate_right(0b0000_0011_u8, 1), 0b1000_0001);
    /// assert_eq!(BitWord::rotate_right(0b0000_0011_u8, 9), 0b1000_0001); // 9 is 1 modulo 8
    /// ```
    ///
    /// # Proved
    ///
    /// ```text
    /// ensures { IsRotated by (bit_list Self.BITS (Self.value result))
    ///     (bit_list Self.BITS (Self.value self)) }
    /// ```
    ///
    /// Definitions: [`bit_list`].
    ///
    /// [`bit_list`]: crate::definitions::bits_digits
    #[must_use]
    fn rotate_right(self, by: u32) -> Self {
        let width = Self::BITS;
        word_of(rotated(pattern_of(self), width - by % width, width))
    }

    /// Returns how many bits are 1.
    ///
    /// # Examples
    ///
    /// ```
    /// use zugyelmas::bits::BitWord;
    ///
    /// assert_eq!(BitWord::count_ones(0b0101_u8), 2);
    /// assert_eq!(BitWord::count_ones(-1_i8), 8);
    /// ```
    ///
    /// # Proved
    ///
    /// ```text
    /// ensures { result ≡ count_by (λ d. d == 1) (bit_list Self.BITS (Self.value self)) }
    /// ```
    ///
    /// Definitions: [`bit_list`].
    ///
    /// [`bit_list`]: crate::definitions::bits_digits
    #[must_use]
    fn count_ones(self) -> u32 {
        pattern_of(self).count_ones()
    }

    /// Returns how many of the most significant bits are 0, before the first that is 1.
    ///
    /// # Examples
    ///
    /// ```
    /// use zugyelmas::bits::BitWord;
    ///
    /// assert_eq!(BitWord::leading_zeros(0b0101_u8), 5);
    /// assert_eq!(BitWord::leading_zeros(0_u8), 8);
    /// ```
    ///
    /// # Proved
    ///
    /// ```text
    /// ensures { result ≡ suffix_len (λ d. d == 0) (bit_list Self.BITS (Self.value self)) }
    /// ```
    ///
    /// Definitions: [`bit_list`].
    ///
    /// [`bit_list`]: crate::definitions::bits_digits
    #[must_use]
    fn leading_zeros(self) -> u32 {
        pattern_of(self).leading_zeros() - (64 - Self::BITS)
    }

    /// Returns how many of the least significant bits are 0, before the first that is 1.
    ///
    /// # Examples
    ///
    /// ```
    /// use zugyelmas::bits::BitWord;
    ///
    /// assert_eq!(BitWord::trailing_zeros(0b0100_u8), 2);
    /// assert_eq!(BitWord::trailing_zeros(0_u8), 8);
    /// ```
    ///
    /// # Proved
    ///
    /// ```text
    /// ensures { result ≡ prefix_len (λ d. d == 0) (bit_list Self.BITS (Self.value self)) }
    /// ```
    ///
    /// Definitions: [`bit_list`].
    ///
    /// [`bit_list`]: crate::definitions::bits_digits
    #[must_use]
    fn trailing_zeros(self) -> u32 {
        pattern_of(self).trailing_zeros().min(Self::BITS)
    }

    /// Returns the word with its bytes in the opposite order.
    ///
    /// # Examples
    ///
    /// ```
    /// use zugyelmas::bits::BitWord;
    ///
    /// assert_eq!(BitWord::swap_bytes(0x1234_u16), 0x3412);
    /// ```
    ///
    /// # Proved
    ///
    /// ```text
    /// ensures { byte_list Self.BITS (Self.value result)
    ///     ≡ reverse (byte_list Self.BITS (Self.value self)) }
    /// ```
    ///
    /// Definitions: [`byte_list`].
    ///
    /// [`byte_list`]: crate::definitions::bits_digits
    #[must_use]
    fn swap_bytes(self) -> Self {
        Self::from_be_bytes(self.to_le_bytes())
    }

    /// Returns the word with its bits in the opposite order.
    ///
    /// # Examples
    ///
    /// ```
    /// use zugyelmas::bits::BitWord;
    ///
    /// assert_eq!(BitWord::reverse_bits(0b0000_0101_u8), 0b1010_0000);
    /// ```
    ///
    /// # Proved
    ///
    /// ```text
    /// ensures { bit_list Self.BITS (Self.value result)
    ///     ≡ reverse (bit_list Self.BITS (Self.value self)) }
    /// ```
    ///
    /// Definitions: [`bit_list`].
    ///
    /// [`bit_list`]: crate::definitions::bits_digits
    #[must_use]
    fn reverse_bits(self) -> Self {
        word_of((pattern_of(self).reverse_bits() >> (64 - Self::BITS)) as u128)
    }

    /// Returns the bytes, the most significant first.
    ///
    /// # Examples
    ///
    /// ```
    /// use zugyelmas::bits::BitWord;
    ///
    /// assert_eq!(BitWord::to_be_bytes(0x1234_u16), [0x12, 0x34]);
    /// ```
    ///
    /// # Proved
    ///
    /// ```text
    /// ensures { as_list result ≡ reverse (byte_list Self.BITS (Self.value self)) }
    /// ```
    ///
    /// Definitions: [`byte_list`].
    ///
    /// [`byte_list`]: crate::definitions::bits_digits
    #[must_use]
    fn to_be_bytes(self) -> Self::Bytes;

    /// Returns the bytes, the least significant first.
    ///
    /// # Examples
    ///
    /// ```
    /// use zugyelmas::bits::BitWord;
    ///
    /// assert_eq!(BitWord::to_le_bytes(0x1234_u16), [0x34, 0x12]);
    /// ```
    ///
    /// # Proved
    ///
    /// ```text
    /// ensures { as_list result ≡ byte_list Self.BITS (Self.value self) }
    /// ```
    ///
    /// Definitions: [`byte_list`].
    ///
    /// [`byte_list`]: crate::definitions::bits_digits
    #[must_use]
    fn to_le_bytes(self) -> Self::Bytes;

    /// Returns the word with these bytes, the most significant first. It is the inverse of `to_be_bytes`.
    ///
    /// # Examples
    ///
    /// ```
    /// use zugyelmas::bits::BitWord;
    ///
    /// assert_eq!(<u16 as BitWord>::from_be_bytes([0x12, 0x34]), 0x1234);
    /// ```
    ///
    /// # Proved
    ///
    /// ```text
    /// ensures { reverse (byte_list Self.BITS (Self.value result)) ≡ as_list bytes }
    /// ```
    ///
    /// Definitions: [`byte_list`].
    ///
    /// [`byte_list`]: crate::definitions::bits_digits
    #[must_use]
    fn from_be_bytes(bytes: Self::Bytes) -> Self;

    /// Returns the word with these bytes, the least significant first. It is the inverse of `to_le_bytes`.
    ///
    /// # Examples
    ///
    /// ```
    /// use zugyelmas::bits::BitWord;
    ///
    /// assert_eq!(<u16 as BitWord>::from_le_bytes([0x12, 0x34]), 0x3412);
    /// ```
    ///
    /// # Proved
    ///
    /// ```text
    /// ensures { byte_list Self.BITS (Self.value result) ≡ as_list bytes }
    /// ```
    ///
    /// Definitions: [`byte_list`].
    ///
    /// [`byte_list`]: crate::definitions::bits_digits
    #[must_use]
    fn from_le_bytes(bytes: Self::Bytes) -> Self;
}
