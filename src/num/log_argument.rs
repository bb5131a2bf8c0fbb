// Made by `make package` of crates/fixed_num/src/log_argument.rt, which is proved: changes go there.

//! The word of which a logarithm is taken.

use crate::word::{Digits, Ledger, Steps};

/// The whole part of a number if that is not 0, and otherwise the number as a fraction that uses all bits of its
/// word.
pub(crate) enum LogArgument<D> {
    Whole(D),
    Raised(D),
}

/// Returns the part of a positive number that has its logarithm.
pub(crate) fn log_argument_of<L: Ledger, D: Digits<L>>(
    val: D,
    frac: u32,
    steps: &mut Steps<L>,
) -> LogArgument<D> {
    if frac == D::BITS {
        return LogArgument::Raised(val);
    }
    let whole = lowered(val, frac, steps);
    if is_at_least_one(whole, steps) {
        LogArgument::Whole(whole)
    } else {
        LogArgument::Raised(raised(val, D::BITS - frac, steps))
    }
}

/// Returns whether a word is at least 1.
fn is_at_least_one<L: Ledger, D: Digits<L>>(a: D, steps: &mut Steps<L>) -> bool {
    D::ONE.at_most(a, steps)
}

/// Returns the quotient by a power of 2, rounded down.
fn lowered<L: Ledger, D: Digits<L>>(a: D, by: u32, steps: &mut Steps<L>) -> D {
    a.shr(by, steps)
}

/// Returns the product by a power of 2.
fn raised<L: Ledger, D: Digits<L>>(a: D, by: u32, steps: &mut Steps<L>) -> D {
    a.shl(by, steps)
}
