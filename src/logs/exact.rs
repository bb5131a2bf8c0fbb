// Made by `make package` of crates/fixed_logs/src/exact.rt, which is proved: changes go there.

//! Steps on words, seen as natural numbers.

use crate::word::{Digits, Ledger, Steps};

/// An exponent, and the power or the product with that exponent.
#[derive(Clone, Copy)]
pub struct Power<D> {
    pub exponent: u32,
    pub power: D,
}

/// Returns whether the word is at most the other.
pub fn is_at_most<L: Ledger, D: Digits<L>>(a: D, b: D, steps: &mut Steps<L>) -> bool {
    a.at_most(b, steps)
}

/// Returns the product, or `None` if it does not fit.
pub fn product<L: Ledger, D: Digits<L>>(a: D, b: D, steps: &mut Steps<L>) -> Option<D> {
    a.times(b, steps)
}

/// Returns the product, or `None` if it is above the bound.
pub fn product_within<L: Ledger, D: Digits<L>>(
    a: D,
    b: D,
    bound: D,
    steps: &mut Steps<L>,
) -> Option<D> {
    let found = product(a, b, steps)?;
    if is_at_most(found, bound, steps) {
        Some(found)
    } else {
        None
    }
}

/// Returns the word of a number, or `None` if it does not fit.
pub fn word_of<L: Ledger, D: Digits<L>>(number: u64, steps: &mut Steps<L>) -> Option<D> {
    D::literal(number, steps)
}

/// Returns an exponent as a logarithm.
#[must_use]
pub fn whole(exponent: u32) -> i32 {
    exponent as i32
}

/// Returns `-(exponent + 1)`.
#[must_use]
pub fn below_zero(exponent: u32) -> i32 {
    -1 - exponent as i32
}
