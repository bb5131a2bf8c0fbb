// Made by `make package` of crates/fixed_root/src/exact.rt, which is proved: changes go there.

//! Calls of `Digits` whose result is exact.

use crate::word::{Digits, Ledger, Steps};

/// Returns the sum.
pub(crate) fn sum<L: Ledger, D: Digits<L>>(a: D, b: D, steps: &mut Steps<L>) -> D {
    a.add(b, steps)
}

/// Returns the difference. Precondition: the second number is at most the first.
pub(crate) fn difference<L: Ledger, D: Digits<L>>(a: D, b: D, steps: &mut Steps<L>) -> D {
    a.sub(b, steps)
}

/// Returns the product by a power of 2.
pub(crate) fn scaled<L: Ledger, D: Digits<L>>(a: D, by: u32, steps: &mut Steps<L>) -> D {
    a.shl(by, steps)
}

/// Returns the bits below the `by` most significant ones, shifted left by `by`.
pub(crate) fn low_part<L: Ledger, D: Digits<L>>(a: D, by: u32, steps: &mut Steps<L>) -> D {
    a.shl(by, steps)
}

/// Returns the `by` most significant bits.
pub(crate) fn high_part<L: Ledger, D: Digits<L>>(a: D, by: u32, steps: &mut Steps<L>) -> D {
    a.shr(D::BITS - by, steps)
}

/// Returns whether the first number is at most the second.
pub(crate) fn is_at_most<L: Ledger, D: Digits<L>>(a: D, b: D, steps: &mut Steps<L>) -> bool {
    a.at_most(b, steps)
}
