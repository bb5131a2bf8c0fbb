// Made by `make package` of crates/tests_policy/src/bounds.rt, which is proved: changes go there.

//! Callers that know a number by the bound of its policy alone.

use crate::policy::Checked;
use crate::word::Valued;

/// Twice the number, or None exactly where that does not fit.
pub fn doubled<N: Checked>(number: N) -> Option<N> {
    number.checked_add(number)
}

/// The width of a number's format, which is one of a word.
pub fn width_of<N: Checked>(_number: N) -> u32 {
    <N::Bits as Valued>::BITS
}
