// Made by `make package` of crates/fixed_word/src/narrow.rt, which is proved: changes go there.

//! Words that have a word of twice their width.

use crate::word::word::{RawWord, Valued, Word};

/// A word of 8 to 32 bits.
pub trait Narrow: Word {
    /// The word of twice the width and of the same signedness.
    type Double: Word;

    /// Returns the same value in the word of twice the width.
    ///
    /// # Examples
    ///
    /// ```
    /// use zugyelmas::word::Narrow;
    ///
    /// assert_eq!((-100_i8).widen(), -100_i16);
    /// assert_eq!(u32::MAX.widen(), 4_294_967_295_u64);
    /// ```
    ///
    /// # Proved
    ///
    /// ```text
    /// ensures value { Self.Double.value result ≡ Self.value self }
    /// ensures in_range { InRange Self.SIGNED Self.BITS (Self.value self) }
    /// ```
    ///
    /// Definitions: [`InRange`].
    ///
    /// [`InRange`]: crate::definitions::word_format
    #[must_use]
    fn widen(self) -> Self::Double;
}

impl Narrow for u8 {
    type Double = u16;

    fn widen(self) -> u16 {
        u16::from(self)
    }
}

impl Narrow for u16 {
    type Double = u32;

    fn widen(self) -> u32 {
        u32::from(self)
    }
}

impl Narrow for u32 {
    type Double = u64;

    fn widen(self) -> u64 {
        u64::from(self)
    }
}

impl Narrow for i8 {
    type Double = i16;

    fn widen(self) -> i16 {
        i16::from(self)
    }
}

impl Narrow for i16 {
    type Double = i32;

    fn widen(self) -> i32 {
        i32::from(self)
    }
}

impl Narrow for i32 {
    type Double = i64;

    fn widen(self) -> i64 {
        i64::from(self)
    }
}
