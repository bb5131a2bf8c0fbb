//! Casts of integers to `f32`, which the proved language has as calls of its std, and to words of the other sign, which
//! Rust's std has from 1.87 on. Where std has a method, its own goes first.

/// The `f32` nearest to `n`, and of two as near the one whose last bit is 0: so Rust's reference defines `as`.
#[inline]
pub fn nearest_i64_to_f32(n: i64) -> f32 {
    n as f32
}

/// The `f32` nearest to `n`, and of two as near the one whose last bit is 0.
#[inline]
pub fn nearest_u64_to_f32(n: u64) -> f32 {
    n as f32
}

/// The signed word of the same bits.
pub trait CastSigned {
    type Signed;

    fn cast_signed(self) -> Self::Signed;
}

/// The unsigned word of the same bits.
pub trait CastUnsigned {
    type Unsigned;

    fn cast_unsigned(self) -> Self::Unsigned;
}

impl CastSigned for u8 {
    type Signed = i8;

    #[inline]
    fn cast_signed(self) -> i8 {
        self as i8
    }
}

impl CastUnsigned for i8 {
    type Unsigned = u8;

    #[inline]
    fn cast_unsigned(self) -> u8 {
        self as u8
    }
}

impl CastSigned for u16 {
    type Signed = i16;

    #[inline]
    fn cast_signed(self) -> i16 {
        self as i16
    }
}

impl CastUnsigned for i16 {
    type Unsigned = u16;

    #[inline]
    fn cast_unsigned(self) -> u16 {
        self as u16
    }
}

impl CastSigned for u32 {
    type Signed = i32;

    #[inline]
    fn cast_signed(self) -> i32 {
        self as i32
    }
}

impl CastUnsigned for i32 {
    type Unsigned = u32;

    #[inline]
    fn cast_unsigned(self) -> u32 {
        self as u32
    }
}

impl CastSigned for u64 {
    type Signed = i64;

    #[inline]
    fn cast_signed(self) -> i64 {
        self as i64
    }
}

impl CastUnsigned for i64 {
    type Unsigned = u64;

    #[inline]
    fn cast_unsigned(self) -> u64 {
        self as u64
    }
}

impl CastSigned for u128 {
    type Signed = i128;

    #[inline]
    fn cast_signed(self) -> i128 {
        self as i128
    }
}

impl CastUnsigned for i128 {
    type Unsigned = u128;

    #[inline]
    fn cast_unsigned(self) -> u128 {
        self as u128
    }
}
