// Made by `make package` of crates/fixed_convert/src/castable.rt, which is proved: changes go there.

//! Words, and the integer of 128 bits to which words of each sign and width convert.

use crate::casts::CastSigned;
use crate::casts::CastUnsigned;
use crate::word::{RawWord, Valued};

/// A word that converts to an integer of 128 bits and back.
pub trait Castable: RawWord {
    /// Returns the same value as an integer of 128 bits.
    ///
    /// # Examples
    ///
    /// ```
    /// use zugyelmas::convert::Castable;
    ///
    /// assert_eq!((-5_i8).to_wide(), -5_i128);
    /// ```
    ///
    /// # Proved
    ///
    /// ```text
    /// ensures value { result ≡ Self.value self }
    /// ensures in_range { InRange Self.SIGNED Self.BITS (Self.value self) }
    /// ```
    ///
    /// Definitions: [`InRange`].
    ///
    /// [`InRange`]: crate::definitions::word_format
    #[must_use]
    fn to_wide(self) -> i128;

    /// Returns the number, wrapped to the word.
    ///
    /// # Examples
    ///
    /// ```
    /// use zugyelmas::convert::Castable;
    ///
    /// assert_eq!(i8::from_wide(-5), -5);
    /// assert_eq!(i8::from_wide(200), -56); // 200 - 256
    /// ```
    ///
    /// # Proved
    ///
    /// ```text
    /// ensures { Self.value result ≡ wrap Self.SIGNED Self.BITS number }
    /// ```
    ///
    /// Definitions: [`wrap`].
    ///
    /// [`wrap`]: crate::definitions::word_format
    #[must_use]
    fn from_wide(number: i128) -> Self;
}

impl Castable for u8 {
    #[inline]
    fn to_wide(self) -> i128 {
        i128::from(self)
    }

    #[inline]
    fn from_wide(number: i128) -> u8 {
        (number.cast_unsigned() % (1 << 8)) as u8
    }
}

impl Castable for u16 {
    #[inline]
    fn to_wide(self) -> i128 {
        i128::from(self)
    }

    #[inline]
    fn from_wide(number: i128) -> u16 {
        (number.cast_unsigned() % (1 << 16)) as u16
    }
}

impl Castable for u32 {
    #[inline]
    fn to_wide(self) -> i128 {
        i128::from(self)
    }

    #[inline]
    fn from_wide(number: i128) -> u32 {
        (number.cast_unsigned() % (1 << 32)) as u32
    }
}

impl Castable for u64 {
    #[inline]
    fn to_wide(self) -> i128 {
        i128::from(self)
    }

    #[inline]
    fn from_wide(number: i128) -> u64 {
        (number.cast_unsigned() % (1 << 64)) as u64
    }
}

impl Castable for i8 {
    #[inline]
    fn to_wide(self) -> i128 {
        i128::from(self)
    }

    #[inline]
    fn from_wide(number: i128) -> i8 {
        u8::from_wide(number).cast_signed()
    }
}

impl Castable for i16 {
    #[inline]
    fn to_wide(self) -> i128 {
        i128::from(self)
    }

    #[inline]
    fn from_wide(number: i128) -> i16 {
        u16::from_wide(number).cast_signed()
    }
}

impl Castable for i32 {
    #[inline]
    fn to_wide(self) -> i128 {
        i128::from(self)
    }

    #[inline]
    fn from_wide(number: i128) -> i32 {
        u32::from_wide(number).cast_signed()
    }
}

impl Castable for i64 {
    #[inline]
    fn to_wide(self) -> i128 {
        i128::from(self)
    }

    #[inline]
    fn from_wide(number: i128) -> i64 {
        u64::from_wide(number).cast_signed()
    }
}
