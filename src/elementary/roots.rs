// Made by `make package` of crates/fixed_elementary/src/roots.rt, which is proved: changes go there.

//! Roots of whole numbers of up to 129 bits, rounded down.

use crate::root::{root_of_double, root_of_word};

/// Returns the root of a number, rounded down. The root of a number that fits into 64 bits is found there, which is
/// faster.
pub(crate) fn root_of_whole(number: u128) -> u128 {
    if number <= u64::MAX as u128 {
        root_of_word(number as u64) as u128
    } else {
        root_of_double(number) as u128
    }
}

/// Returns the root of `2^128 + rest`, rounded down: twice the root of a quarter, or one more.
pub(crate) fn root_past(rest: u128) -> u128 {
    let quarter = (1 << 126) + rest / 4;
    let half = root_of_double(quarter) as u128;
    let left = 4 * (quarter - half * half) + rest % 4;
    if left > 4 * half {
        2 * half + 1
    } else {
        2 * half
    }
}
