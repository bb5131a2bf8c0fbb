// Made by `make package` of crates/fixed_word/src/word.rt, which is proved: changes go there.

//! Words, as integers.

use crate::word::arithmetic::Arithmetic;
use crate::word::digits::Digits;
use crate::word::ledger::Silent;
use core::hash::Hash;

/// An integer of `BITS` bits, which contracts see as its value.
pub trait Valued: Copy + crate::sealed::Sealed {
    /// The width: 8, 16, 32 or 64 for words, and also 128 for other integers.
    const BITS: u32;
}

/// A word with its signedness and its range.
pub trait RawWord: Valued + Eq + Ord + Hash {
    /// Whether the word has negative values.
    const SIGNED: bool;

    /// The value 0.
    const ZERO: Self;

    /// The value 1.
    const ONE: Self;

    /// The smallest value: `-2^(n-1)` for a signed word, 0 for an unsigned one.
    const MIN: Self;

    /// The largest value: `2^(n-1) - 1` for a signed word, `2^n - 1` for an unsigned one.
    const MAX: Self;

    /// Returns whether the value is negative.
    ///
    /// # Examples
    ///
    /// ```
    /// use zugyelmas::word::{RawWord, Word};
    ///
    /// assert!((-1_i8).is_below_zero());
    /// assert!(!255_u8.is_below_zero());
    /// ```
    ///
    /// # Proved
    ///
    /// ```text
    /// ensures sign { IsTrue result ↔ (Self.value self <ℤ pos 0) }
    /// ensures in_range { InRange SIGNED Self.BITS (Self.value self) }
    /// ```
    ///
    /// Definitions: [`InRange`].
    ///
    /// [`InRange`]: crate::definitions::word_format
    #[must_use]
    fn is_below_zero(self) -> bool;

    /// Returns the magnitude of the value.
    ///
    /// # Examples
    ///
    /// ```
    /// use zugyelmas::word::{RawWord, Word};
    ///
    /// assert_eq!((-128_i8).magnitude(), 128);
    /// assert_eq!(200_u8.magnitude(), 200);
    /// ```
    ///
    /// # Proved
    ///
    /// ```text
    /// ensures magnitude { result ≡ unsigned_abs (Self.value self) }
    /// ensures in_range { InRange SIGNED Self.BITS (Self.value self) }
    /// ```
    ///
    /// Definitions: [`InRange`].
    ///
    /// [`InRange`]: crate::definitions::word_format
    #[must_use]
    fn magnitude(self) -> u64;

    /// Returns `magnitude`, or `-magnitude` if `below_zero`, wrapped to the word.
    ///
    /// # Examples
    ///
    /// ```
    /// use zugyelmas::word::{RawWord, Word};
    ///
    /// assert_eq!(i8::residue(true, 5), -5);
    /// assert_eq!(i8::residue(false, 200), -56); // 200 - 256
    /// assert_eq!(u8::residue(true, 1), 255); // -1 + 256
    /// ```
    ///
    /// # Proved
    ///
    /// ```text
    /// ensures { Self.value result ≡ wrap SIGNED Self.BITS (with_sign below_zero magnitude) }
    /// ```
    ///
    /// Definitions: [`with_sign`], [`wrap`].
    ///
    /// [`with_sign`]: crate::definitions::word_format
    /// [`wrap`]: crate::definitions::word_format
    #[must_use]
    fn residue(below_zero: bool, magnitude: u128) -> Self;

    /// Returns `end` if `past`, and otherwise the word itself. As a method of the word it compiles to one select.
    ///
    /// # Examples
    ///
    /// ```
    /// use zugyelmas::word::{RawWord, Word};
    ///
    /// assert_eq!(5_i8.unless(false, i8::MAX), 5);
    /// assert_eq!(5_i8.unless(true, i8::MAX), 127);
    /// ```
    ///
    /// # Proved
    ///
    /// ```text
    /// ensures { result ≡ (if past then end else self) }
    /// ```
    #[inline]
    #[must_use]
    fn unless(self, past: bool, end: Self) -> Self {
        if past { end } else { self }
    }
}

/// An integer whose equality and order are those of the values.
pub trait Ordered: Valued + Eq + Ord + Hash {}

/// A word, with the signed and the unsigned word of its width.
pub trait Word: Arithmetic + Ordered {
    /// The unsigned word of the same width.
    type Unsigned: UnsignedWord + Digits<Silent>;

    /// The signed word of the same width.
    type Signed: SignedWord;

    /// Returns the value, wrapped to the unsigned word.
    ///
    /// # Examples
    ///
    /// ```
    /// use zugyelmas::word::{RawWord, Word};
    ///
    /// assert_eq!(5_i8.to_unsigned(), 5_u8);
    /// assert_eq!((-1_i8).to_unsigned(), 255_u8); // -1 + 256
    /// ```
    ///
    /// # Proved
    ///
    /// ```text
    /// ensures value { Self.Unsigned.value result ≡ wrap false Self.BITS (Self.value self) }
    /// ensures in_range { InRange Self.SIGNED Self.BITS (Self.value self) }
    /// ```
    ///
    /// Definitions: [`InRange`], [`wrap`].
    ///
    /// [`InRange`]: crate::definitions::word_format
    /// [`wrap`]: crate::definitions::word_format
    #[must_use]
    fn to_unsigned(self) -> Self::Unsigned;

    /// Returns the value, wrapped to the signed word.
    ///
    /// # Examples
    ///
    /// ```
    /// use zugyelmas::word::{RawWord, Word};
    ///
    /// assert_eq!(5_u8.to_signed(), 5_i8);
    /// assert_eq!(200_u8.to_signed(), -56_i8); // 200 - 256
    /// ```
    ///
    /// # Proved
    ///
    /// ```text
    /// ensures value { Self.Signed.value result ≡ wrap true Self.BITS (Self.value self) }
    /// ensures in_range { InRange Self.SIGNED Self.BITS (Self.value self) }
    /// ```
    ///
    /// Definitions: [`InRange`], [`wrap`].
    ///
    /// [`InRange`]: crate::definitions::word_format
    /// [`wrap`]: crate::definitions::word_format
    #[must_use]
    fn to_signed(self) -> Self::Signed;

    /// Returns the word whose `to_unsigned` is `bits`.
    ///
    /// # Examples
    ///
    /// ```
    /// use zugyelmas::word::{RawWord, Word};
    ///
    /// assert_eq!(i8::from_unsigned(5), 5);
    /// assert_eq!(i8::from_unsigned(200), -56); // 200 - 256
    /// ```
    ///
    /// # Proved
    ///
    /// ```text
    /// ensures { Self.value result ≡ wrap Self.SIGNED Self.BITS (Self.Unsigned.value bits) }
    /// ```
    ///
    /// Definitions: [`wrap`].
    ///
    /// [`wrap`]: crate::definitions::word_format
    #[must_use]
    fn from_unsigned(bits: Self::Unsigned) -> Self;
}

/// A signed word: `i8`, `i16`, `i32` or `i64`.
pub trait SignedWord: Word {}

/// An unsigned word: `u8`, `u16`, `u32` or `u64`.
pub trait UnsignedWord: Word {}
