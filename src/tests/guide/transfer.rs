// Made by `make package` of crates/fixed_guide/src/transfer.rt, which is proved: changes go there.

//! A ledger in which money is neither made nor lost.

use crate::{Checked, FixedI64};

/// An amount, in units of 1/256.
pub type Money = FixedI64<8>;

/// Moves an amount from one account to the other. The sum of the balances is unchanged. Returns `None` if and only if a
/// new balance does not fit; both accounts are then unchanged.
pub fn transfer(from: &mut Money, to: &mut Money, amount: Money) -> Option<()> {
    let less = from.checked_sub(amount)?;
    let more = to.checked_add(amount)?;
    *from = less;
    *to = more;
    Some(())
}
