// Made by `make package` of crates/fixed_table/src/distance.rt, which is proved: changes go there.

//! How far a number lies above another.

use crate::word::RawWord;

/// Returns how far `x` lies above `first`, and 0 if it does not.
pub(crate) fn units_above<T: RawWord>(x: T, first: T) -> u64 {
    match (first.is_below_zero(), x.is_below_zero()) {
        (false, true) => 0,
        (true, false) => first.magnitude() + x.magnitude(),
        (false, false) => x.magnitude().saturating_sub(first.magnitude()),
        (true, true) => first.magnitude().saturating_sub(x.magnitude()),
    }
}
