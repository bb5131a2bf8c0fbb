// Made by `make package` of crates/fixed_natural/src/scaling.rt, which is proved: changes go there.

//! Numbers in units of `2^-places`, and products by a constant.

use crate::elementary::wide::product;

/// Returns how many more fraction bits than its result a logarithm is computed with.
pub(crate) fn guard_of(bits: u32) -> u32 {
    if bits <= 32 { 25 } else { 33 }
}

/// Returns a whole number in units of `2^-places`.
pub(crate) fn in_places(whole: u32, places: u32) -> u128 {
    u128::from(whole) << places
}

/// Returns `units * factor / 2^(128+guard)`, rounded down.
pub(crate) fn scaled(units: u128, factor: u128, guard: u32) -> u128 {
    product(units, factor).high >> guard
}

/// Returns `units - less`, or `None` if it is below 0.
pub(crate) fn difference(units: u128, less: u128) -> Option<u128> {
    if units < less {
        None
    } else {
        Some(units - less)
    }
}
