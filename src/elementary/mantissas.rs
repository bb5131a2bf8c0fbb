// Made by `make package` of crates/fixed_elementary/src/mantissas.rt, which is proved: changes go there.

//! Mantissas, and the digits of logarithms to the base 2 by squaring: each turn squares a mantissa and finds one binary
//! digit.

use crate::elementary::wide::product;
use crate::word::{Digits, Silent, Steps};

/// Digits of a logarithm, and the mantissa that is left, in units of `2^-63`.
#[derive(Clone, Copy)]
pub(crate) struct Narrow {
    pub digits: u64,
    pub mantissa: u64,
}

/// Digits of a logarithm, and the mantissa that is left, in units of `2^-127`.
#[derive(Clone, Copy)]
pub(crate) struct Broad {
    pub digits: u128,
    pub mantissa: u128,
}

/// Returns how many of the highest bits are 0. Precondition: `a` is above 0.
fn zeros_of(a: u64) -> u32 {
    let mut steps = Steps::new(Silent::new());
    Digits::leading_zeros(a, &mut steps)
}

/// Returns the product by a power of 2. Precondition: it fits.
fn raised(a: u64, by: u32) -> u64 {
    a << by
}

/// Returns the whole part of the logarithm, and the mantissa in units of `2^-63`. Precondition: `a` is above 0.
pub(crate) fn whole(a: u64) -> Narrow {
    let zeros = zeros_of(a);
    Narrow {
        digits: 63 - u64::from(zeros),
        mantissa: raised(a, zeros),
    }
}

/// Returns the whole part of the logarithm, and the mantissa in units of `2^-127`. Precondition: `a` is above 0.
pub(crate) fn broad_whole(a: u64) -> Broad {
    let start = whole(a);
    Broad {
        digits: u128::from(start.digits),
        mantissa: u128::from(start.mantissa) * (1 << 64),
    }
}

/// Returns the next digit, and the mantissa after it: the square, over 2 if the digit is 1, rounded down. Precondition:
/// the mantissa is at least 1, which is `2^63`.
#[inline]
fn squared(mantissa: u64) -> Narrow {
    let square = u128::from(mantissa) * u128::from(mantissa);
    let half = square >> 63;
    if half <= u64::MAX as u128 {
        Narrow {
            digits: 0,
            mantissa: half as u64,
        }
    } else {
        Narrow {
            digits: 1,
            mantissa: (square >> 64) as u64,
        }
    }
}

/// Does the same in 128 bits. Precondition: the mantissa is at least 1, which is `2^127`.
#[inline]
fn broad_squared(mantissa: u128) -> Broad {
    let square = product(mantissa, mantissa);
    if square.high < 1 << 127 {
        Broad {
            digits: 0,
            mantissa: 2 * square.high + square.low / (1 << 127),
        }
    } else {
        Broad {
            digits: 1,
            mantissa: square.high,
        }
    }
}

/// Returns the logarithm in units of `2^-places`, from a mantissa of 64 bits.
#[inline(never)]
pub(crate) fn narrow_squarings(a: u64, places: u32) -> u64 {
    let start = whole(a);
    let mut digits = start.digits;
    let mut mantissa = start.mantissa;
    for i in 0..places {
        let next = squared(mantissa);
        digits = 2 * digits + next.digits;
        mantissa = next.mantissa;
    }
    digits
}

/// Returns the logarithm in units of `2^-places`, from a mantissa of 128 bits.
#[inline(never)]
pub(crate) fn broad_squarings(a: u64, places: u32) -> u128 {
    let start = broad_whole(a);
    let mut digits = start.digits;
    let mut mantissa = start.mantissa;
    for i in 0..places {
        let next = broad_squared(mantissa);
        digits = 2 * digits + next.digits;
        mantissa = next.mantissa;
    }
    digits
}
