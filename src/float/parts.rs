// Made by `make package` of crates/fixed_float/src/parts.rt, which is proved: changes go there.

//! The parts of a float.

/// A finite float: `digits * 2^scale` times the least float above 0, or minus that if `below_zero`.
#[derive(Clone, Copy)]
pub(crate) struct Parts {
    pub(crate) below_zero: bool,
    pub(crate) digits: u64,
    pub(crate) scale: u64,
}

/// The least float above 0 is `2^-LEAST`.
pub(crate) const LEAST: u64 = 1074;

/// How many bits store a float's digits. They lack the leading digit, which follows from the exponent's field.
const FRACTION: u32 = 52;

/// Returns the parts of a float, or `None` for a NaN and the infinities.
#[inline]
pub(crate) fn parts_of(x: f64) -> Option<Parts> {
    if !x.is_finite() {
        return None;
    }
    let bits = x.to_bits();
    let size = bits % (1 << 63);
    let (fraction, field) = (size % (1 << FRACTION), size >> FRACTION);
    let below_zero = bits >> 63 == 1;
    if field == 0 {
        Some(Parts {
            below_zero,
            digits: fraction,
            scale: 0,
        })
    } else {
        Some(Parts {
            below_zero,
            digits: fraction + (1 << FRACTION),
            scale: field - 1,
        })
    }
}
