// Made by `make package` of crates/fixed_guide/src/generic.rt, which is proved: changes go there.

//! Code for numbers of every word and every number of fraction bits.

use crate::{Checked, Overflowing, Saturating, Strict, Unwrapped, Wrapping};

/// Returns the sum of three numbers of one format. Returns `None` if and only if the sum of the first two, or of all
/// three, does not fit.
pub fn sum_of_three<N: Checked>(a: N, b: N, c: N) -> Option<N> {
    let sum = a.checked_add(b)?;
    let total = sum.checked_add(c)?;
    Some(total)
}

/// Returns the sum of three numbers, where each partial sum saturates.
pub fn saturating_sum_of_three<N: Saturating>(a: N, b: N, c: N) -> N {
    a.saturating_add(b).saturating_add(c)
}

/// Returns the sum of three numbers, wrapped. That the first partial sum wraps makes no difference.
pub fn wrapping_sum_of_three<N: Wrapping>(a: N, b: N, c: N) -> N {
    a.wrapping_add(b).wrapping_add(c)
}

/// Returns the sum of three numbers, wrapped, and whether a partial sum does not fit. If each fits, the sum is exact.
pub fn overflowing_sum_of_three<N: Overflowing>(a: N, b: N, c: N) -> (N, bool) {
    let (sum, first) = a.overflowing_add(b);
    let (total, second) = sum.overflowing_add(c);
    (total, first || second)
}

/// Returns the sum of three numbers. Precondition: each partial sum fits.
pub fn strict_sum_of_three<N: Strict>(a: N, b: N, c: N) -> N {
    a.strict_add(b).strict_add(c)
}

/// Returns the sum of three numbers. Precondition: each partial sum fits.
pub fn unwrapped_sum_of_three<N: Unwrapped>(a: N, b: N, c: N) -> N {
    a.unwrapped_add(b).unwrapped_add(c)
}

/// Returns what is left of a stock: the difference, or 0 if more is taken than there is. Returns `None` if and only if
/// that does not fit.
pub fn left_of<N: Checked>(stock: N, taken: N) -> Option<N> {
    if stock < taken {
        return Some(N::ZERO);
    }
    stock.checked_sub(taken)
}
