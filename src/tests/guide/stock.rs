// Made by `make package` of crates/fixed_guide/src/stock.rt, which is proved: changes go there.

//! A stock from which no more is taken than there is: a strict call under a precondition.

use crate::{FixedU32, Strict};

/// A volume of at least 0, in units of `2^-12`.
pub type Volume = FixedU32<12>;

/// Returns what is left of a stock. Precondition: no more is taken than there is.
pub fn left(stock: Volume, taken: Volume) -> Volume {
    stock.strict_sub(taken)
}

/// Returns what is left of a stock. Returns `None` if and only if more is taken than there is.
pub fn drawn(stock: Volume, taken: Volume) -> Option<Volume> {
    if stock < taken {
        return None;
    }
    Some(left(stock, taken))
}
