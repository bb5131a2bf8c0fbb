// Made by `make package` of crates/fixed_cast/src/numeric.rt, which is proved: changes go there.

//! Numbers of any format, and integers as numbers without fraction bits.

use crate::convert::Castable;
use crate::num::Fixed;
use crate::word::RawWord;

/// A number of a format, or an integer: a whole number of units of `2^-FRACTION`. (`fixed` does not have this trait.)
pub trait Numeric: Copy {
    /// The word that holds the number.
    type Word: Castable;

    /// The number of fraction bits; 0 for an integer.
    const FRACTION: u32;

    /// Returns the number with that many units of `2^-FRACTION`.
    ///
    /// # Examples
    ///
    /// ```
    /// use zugyelmas::Numeric;
    /// use zugyelmas::prelude::*;
    ///
    /// assert_eq!(FixedI8::<4>::from_word(24), FixedI8::from_bits(24)); // 1.5
    /// assert_eq!(i8::from_word(24), 24);
    /// ```
    ///
    /// # Proved
    ///
    /// ```text
    /// ensures { units result ≡ Self.Word.value word }
    /// ```
    #[must_use]
    fn from_word(word: Self::Word) -> Self;

    /// Returns how many units of `2^-FRACTION` the number has.
    ///
    /// # Examples
    ///
    /// ```
    /// use zugyelmas::Numeric;
    /// use zugyelmas::prelude::*;
    ///
    /// assert_eq!(FixedI8::<4>::from_bits(24).to_word(), 24); // 1.5
    /// assert_eq!(24_i8.to_word(), 24);
    /// ```
    ///
    /// # Proved
    ///
    /// ```text
    /// ensures { Self.Word.value result ≡ units self }
    /// ```
    #[must_use]
    fn to_word(self) -> Self::Word;
}

impl<T: Castable, const F: u32> Numeric for Fixed<T, F> {
    type Word = T;

    const FRACTION: u32 = F;

    #[inline]
    fn from_word(word: T) -> Self {
        Fixed { bits: word }
    }

    #[inline]
    fn to_word(self) -> T {
        self.bits
    }
}

impl Numeric for u8 {
    type Word = u8;

    const FRACTION: u32 = 0;

    #[inline]
    fn from_word(word: u8) -> u8 {
        word
    }

    #[inline]
    fn to_word(self) -> u8 {
        self
    }
}

impl Numeric for u16 {
    type Word = u16;

    const FRACTION: u32 = 0;

    #[inline]
    fn from_word(word: u16) -> u16 {
        word
    }

    #[inline]
    fn to_word(self) -> u16 {
        self
    }
}

impl Numeric for u32 {
    type Word = u32;

    const FRACTION: u32 = 0;

    #[inline]
    fn from_word(word: u32) -> u32 {
        word
    }

    #[inline]
    fn to_word(self) -> u32 {
        self
    }
}

impl Numeric for u64 {
    type Word = u64;

    const FRACTION: u32 = 0;

    #[inline]
    fn from_word(word: u64) -> u64 {
        word
    }

    #[inline]
    fn to_word(self) -> u64 {
        self
    }
}

impl Numeric for i8 {
    type Word = i8;

    const FRACTION: u32 = 0;

    #[inline]
    fn from_word(word: i8) -> i8 {
        word
    }

    #[inline]
    fn to_word(self) -> i8 {
        self
    }
}

impl Numeric for i16 {
    type Word = i16;

    const FRACTION: u32 = 0;

    #[inline]
    fn from_word(word: i16) -> i16 {
        word
    }

    #[inline]
    fn to_word(self) -> i16 {
        self
    }
}

impl Numeric for i32 {
    type Word = i32;

    const FRACTION: u32 = 0;

    #[inline]
    fn from_word(word: i32) -> i32 {
        word
    }

    #[inline]
    fn to_word(self) -> i32 {
        self
    }
}

impl Numeric for i64 {
    type Word = i64;

    const FRACTION: u32 = 0;

    #[inline]
    fn from_word(word: i64) -> i64 {
        word
    }

    #[inline]
    fn to_word(self) -> i64 {
        self
    }
}
