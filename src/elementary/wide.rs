// Made by `make package` of crates/fixed_elementary/src/wide.rt, which is proved: changes go there.

//! Products of up to 256 bits.

/// A number of 256 bits, as its high and its low half.
#[derive(Clone, Copy)]
pub struct Double {
    pub high: u128,
    pub low: u128,
}

/// A number of 128 bits, as its halves.
#[derive(Clone, Copy)]
struct Halves {
    high: u128,
    low: u128,
}

/// Returns the halves of a number.
#[inline]
fn split(number: u128) -> Halves {
    Halves {
        high: number >> 64,
        low: number % (1 << 64),
    }
}

/// Returns the product of two halves, plus one more half.
#[inline]
fn half_product(a: u128, b: u128, more: u128) -> Halves {
    split(a * b + more)
}

/// Returns the product of two numbers of 128 bits.
#[inline]
#[must_use]
pub fn product(a: u128, b: u128) -> Double {
    let (a, b) = (split(a), split(b));
    let lowest = half_product(a.low, b.low, 0);
    let first = half_product(a.low, b.high, lowest.high);
    let second = half_product(a.high, b.low, first.low);
    Double {
        high: a.high * b.high + first.high + second.high,
        low: second.low * (1 << 64) + lowest.low,
    }
}

/// Returns the higher half of a product.
#[inline]
pub(crate) fn high(a: u64, b: u64) -> u64 {
    ((u128::from(a) * u128::from(b)) >> 64) as u64
}

/// Returns the product by a factor in units of `2^-63`, rounded down. Precondition: the factor is at most 1.
#[inline]
pub(crate) fn narrow_scaled(number: u64, factor: u64) -> u64 {
    ((u128::from(number) * u128::from(factor)) >> 63) as u64
}

/// Does the same in 128 bits.
#[inline]
pub(crate) fn broad_scaled(number: u128, factor: u64) -> u128 {
    let number = split(number);
    let factor = u128::from(factor);
    2 * (number.high * factor) + number.low * factor / (1 << 63)
}
