// Made by `make package` of crates/fixed_word/src/words.rt, which is proved: changes go there.

//! The words of 8, 16, 32 and 64 bits.

use crate::casts::CastSigned;
use crate::casts::CastUnsigned;
use crate::word::word::{Ordered, RawWord, SignedWord, UnsignedWord, Valued, Word};

impl Valued for u8 {
    const BITS: u32 = 8;
}

impl RawWord for u8 {
    const SIGNED: bool = false;

    const ZERO: u8 = 0;

    const ONE: u8 = 1;

    const MIN: u8 = 0;

    const MAX: u8 = 255;

    fn is_below_zero(self) -> bool {
        false
    }

    fn magnitude(self) -> u64 {
        self as u64
    }

    fn residue(below_zero: bool, magnitude: u128) -> u8 {
        let low = (magnitude % (1 << 8)) as u8;
        if below_zero { low.wrapping_neg() } else { low }
    }
}

impl Ordered for u8 {}

impl Word for u8 {
    type Unsigned = u8;

    type Signed = i8;

    fn to_unsigned(self) -> u8 {
        self
    }

    fn to_signed(self) -> i8 {
        self.cast_signed()
    }

    fn from_unsigned(bits: u8) -> u8 {
        bits
    }
}

impl UnsignedWord for u8 {}

impl Valued for u16 {
    const BITS: u32 = 16;
}

impl RawWord for u16 {
    const SIGNED: bool = false;

    const ZERO: u16 = 0;

    const ONE: u16 = 1;

    const MIN: u16 = 0;

    const MAX: u16 = 65535;

    fn is_below_zero(self) -> bool {
        false
    }

    fn magnitude(self) -> u64 {
        self as u64
    }

    fn residue(below_zero: bool, magnitude: u128) -> u16 {
        let low = (magnitude % (1 << 16)) as u16;
        if below_zero { low.wrapping_neg() } else { low }
    }
}

impl Ordered for u16 {}

impl Word for u16 {
    type Unsigned = u16;

    type Signed = i16;

    fn to_unsigned(self) -> u16 {
        self
    }

    fn to_signed(self) -> i16 {
        self.cast_signed()
    }

    fn from_unsigned(bits: u16) -> u16 {
        bits
    }
}

impl UnsignedWord for u16 {}

impl Valued for u32 {
    const BITS: u32 = 32;
}

impl RawWord for u32 {
    const SIGNED: bool = false;

    const ZERO: u32 = 0;

    const ONE: u32 = 1;

    const MIN: u32 = 0;

    const MAX: u32 = 4294967295;

    fn is_below_zero(self) -> bool {
        false
    }

    fn magnitude(self) -> u64 {
        self as u64
    }

    fn residue(below_zero: bool, magnitude: u128) -> u32 {
        let low = (magnitude % (1 << 32)) as u32;
        if below_zero { low.wrapping_neg() } else { low }
    }
}

impl Ordered for u32 {}

impl Word for u32 {
    type Unsigned = u32;

    type Signed = i32;

    fn to_unsigned(self) -> u32 {
        self
    }

    fn to_signed(self) -> i32 {
        self.cast_signed()
    }

    fn from_unsigned(bits: u32) -> u32 {
        bits
    }
}

impl UnsignedWord for u32 {}

impl Valued for u64 {
    const BITS: u32 = 64;
}

impl RawWord for u64 {
    const SIGNED: bool = false;

    const ZERO: u64 = 0;

    const ONE: u64 = 1;

    const MIN: u64 = 0;

    const MAX: u64 = 18446744073709551615;

    fn is_below_zero(self) -> bool {
        false
    }

    fn magnitude(self) -> u64 {
        self
    }

    fn residue(below_zero: bool, magnitude: u128) -> u64 {
        let low = (magnitude % (1 << 64)) as u64;
        if below_zero { low.wrapping_neg() } else { low }
    }
}

impl Ordered for u64 {}

impl Word for u64 {
    type Unsigned = u64;

    type Signed = i64;

    fn to_unsigned(self) -> u64 {
        self
    }

    fn to_signed(self) -> i64 {
        self.cast_signed()
    }

    fn from_unsigned(bits: u64) -> u64 {
        bits
    }
}

impl UnsignedWord for u64 {}

impl Valued for i8 {
    const BITS: u32 = 8;
}

impl RawWord for i8 {
    const SIGNED: bool = true;

    const ZERO: i8 = 0;

    const ONE: i8 = 1;

    const MIN: i8 = -128;

    const MAX: i8 = 127;

    fn is_below_zero(self) -> bool {
        self < 0
    }

    fn magnitude(self) -> u64 {
        self.unsigned_abs() as u64
    }

    fn residue(below_zero: bool, magnitude: u128) -> i8 {
        u8::residue(below_zero, magnitude).cast_signed()
    }
}

impl Ordered for i8 {}

impl Word for i8 {
    type Unsigned = u8;

    type Signed = i8;

    fn to_unsigned(self) -> u8 {
        self.cast_unsigned()
    }

    fn to_signed(self) -> i8 {
        self
    }

    fn from_unsigned(bits: u8) -> i8 {
        bits.cast_signed()
    }
}

impl SignedWord for i8 {}

impl Valued for i16 {
    const BITS: u32 = 16;
}

impl RawWord for i16 {
    const SIGNED: bool = true;

    const ZERO: i16 = 0;

    const ONE: i16 = 1;

    const MIN: i16 = -32768;

    const MAX: i16 = 32767;

    fn is_below_zero(self) -> bool {
        self < 0
    }

    fn magnitude(self) -> u64 {
        self.unsigned_abs() as u64
    }

    fn residue(below_zero: bool, magnitude: u128) -> i16 {
        u16::residue(below_zero, magnitude).cast_signed()
    }
}

impl Ordered for i16 {}

impl Word for i16 {
    type Unsigned = u16;

    type Signed = i16;

    fn to_unsigned(self) -> u16 {
        self.cast_unsigned()
    }

    fn to_signed(self) -> i16 {
        self
    }

    fn from_unsigned(bits: u16) -> i16 {
        bits.cast_signed()
    }
}

impl SignedWord for i16 {}

impl Valued for i32 {
    const BITS: u32 = 32;
}

impl RawWord for i32 {
    const SIGNED: bool = true;

    const ZERO: i32 = 0;

    const ONE: i32 = 1;

    const MIN: i32 = -2147483648;

    const MAX: i32 = 2147483647;

    fn is_below_zero(self) -> bool {
        self < 0
    }

    fn magnitude(self) -> u64 {
        self.unsigned_abs() as u64
    }

    fn residue(below_zero: bool, magnitude: u128) -> i32 {
        u32::residue(below_zero, magnitude).cast_signed()
    }
}

impl Ordered for i32 {}

impl Word for i32 {
    type Unsigned = u32;

    type Signed = i32;

    fn to_unsigned(self) -> u32 {
        self.cast_unsigned()
    }

    fn to_signed(self) -> i32 {
        self
    }

    fn from_unsigned(bits: u32) -> i32 {
        bits.cast_signed()
    }
}

impl SignedWord for i32 {}

impl Valued for i64 {
    const BITS: u32 = 64;
}

impl RawWord for i64 {
    const SIGNED: bool = true;

    const ZERO: i64 = 0;

    const ONE: i64 = 1;

    const MIN: i64 = -9223372036854775808;

    const MAX: i64 = 9223372036854775807;

    fn is_below_zero(self) -> bool {
        self < 0
    }

    fn magnitude(self) -> u64 {
        self.unsigned_abs()
    }

    fn residue(below_zero: bool, magnitude: u128) -> i64 {
        u64::residue(below_zero, magnitude).cast_signed()
    }
}

impl Ordered for i64 {}

impl Word for i64 {
    type Unsigned = u64;

    type Signed = i64;

    fn to_unsigned(self) -> u64 {
        self.cast_unsigned()
    }

    fn to_signed(self) -> i64 {
        self
    }

    fn from_unsigned(bits: u64) -> i64 {
        bits.cast_signed()
    }
}

impl SignedWord for i64 {}
