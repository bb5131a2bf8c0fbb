// Made by `make package` of crates/fixed_guide/src/invoice.rt, which is proved: changes go there.

//! Code with operators, which reads like arithmetic. Each caller shows that the result fits.

use crate::FixedU32;

/// An amount of at least 0, in units of 1/256.
pub type Amount = FixedU32<8>;

/// Returns the price times the number of pieces, plus the fee. Nothing is rounded. Preconditions, by which the total
/// fits: the price and the fee are below `2^12`, and there are at most 255 pieces.
pub fn total(price: Amount, pieces: u32, fee: Amount) -> Amount {
    price * pieces + fee
}
