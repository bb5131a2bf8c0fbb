// Made by `make package` of crates/fixed_elementary/src/factors.rt, which is proved: changes go there.

//! Factors that bring a mantissa near 1, with their logarithms.

use crate::elementary::factor_table::FACTORS;
use crate::elementary::log_table::LOGS;

/// A factor in units of `2^-63`, and minus its logarithm in units of `2^-126`.
#[derive(Clone, Copy)]
pub(crate) struct Factor {
    pub factor: u64,
    pub log: u128,
}

/// Returns the factor for the mantissas from `1 + digit / 128^(group+1)` up to where the next digit begins. Its product
/// by such a mantissa is at least 1, and hardly above `1 + 1 / 128^(group+1)`.
#[inline]
pub(crate) fn factor_of(digit: u64, group: u32) -> Factor {
    let row = 128 * group as usize + digit as usize;
    Factor {
        factor: FACTORS[row],
        log: LOGS[row],
    }
}
