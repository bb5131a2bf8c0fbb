// Made by `make package` of crates/fixed_radix/src/bases.rt, which is proved: changes go there.

//! The bases, each a power of 2.

/// A base, and the case of its digits above 9.
#[derive(Clone, Copy, Debug, PartialEq, Eq)]
pub enum Base {
    /// Base 2.
    Binary,
    /// Base 8.
    Octal,
    /// Base 16, with the digits `a` to `f`.
    LowerHex,
    /// Base 16, with the digits `A` to `F`.
    UpperHex,
}

/// Returns how many bits a digit has.
pub(crate) fn digit_bits(base: Base) -> u32 {
    match base {
        Base::Binary => 1,
        Base::Octal => 3,
        Base::LowerHex | Base::UpperHex => 4,
    }
}

/// Returns whether the digits above 9 are capital letters.
pub(crate) fn is_upper(base: Base) -> bool {
    match base {
        Base::UpperHex => true,
        Base::Binary | Base::Octal | Base::LowerHex => false,
    }
}

/// Returns the prefix of a number if the formatter is alternate.
pub(crate) fn prefix_of(base: Base) -> &'static str {
    match base {
        Base::Binary => "0b",
        Base::Octal => "0o",
        Base::LowerHex | Base::UpperHex => "0x",
    }
}

/// Returns a digit as a character. Precondition: the digit is below 16.
pub(crate) fn glyph(digit: u8, upper: bool) -> u8 {
    if digit < 10 {
        b'0' + digit
    } else if upper {
        b'A' + (digit - 10)
    } else {
        b'a' + (digit - 10)
    }
}
