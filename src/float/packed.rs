// Made by `make package` of crates/fixed_float/src/packed.rt, which is proved: changes go there.

//! Floats that hold a whole number in their lowest bits.

/// Returns the float `(2^52 + low) * 2^by / 2^frac`, whose lowest 52 bits are `low`.
#[inline]
pub(crate) fn packed_f64(low: u64, by: u32, frac: u32) -> f64 {
    f64::from_bits((((1075 + by - frac) as u64) << 52) + low)
}

/// Returns the float `(2^23 + low) * 2^by / 2^frac`, whose lowest 23 bits are `low`.
#[inline]
pub(crate) fn packed_f32(low: u32, by: u32, frac: u32) -> f32 {
    f32::from_bits(((150 + by - frac) << 23) + low)
}
