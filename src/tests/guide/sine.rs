// Made by `make package` of crates/fixed_guide/src/sine.rt, which is proved: changes go there.

//! The sine of a part of a quarter turn, with a bound on its rounding.

use crate::FixedI32;
use crate::poly::{PolyReply, horner};

/// A part of a quarter turn, or the sine of one, in units of `2^-29`.
pub type Q29 = FixedI32<29>;

/// Returns the coefficients of a polynomial that lies within 0.0000007 of the sine for x from 0 to 1, the lowest first.
/// The coefficients of x, x^3, x^5 and x^7 are at odd indices, and the others are 0.
fn coefficients() -> [Q29; 8] {
    [
        Q29 { bits: 0 },
        Q29 { bits: 843312475 },
        Q29 { bits: 0 },
        Q29 { bits: -346764231 },
        Q29 { bits: 0 },
        Q29 { bits: 42651708 },
        Q29 { bits: 0 },
        Q29 { bits: -2329391 },
    ]
}

/// Returns the sine of a part of a quarter turn, by a polynomial of degree 7. The result lies at or below the exact
/// value of the polynomial, by less than 7 units. Precondition: the part is from 0 to 1.
pub fn sine(part: Q29) -> Q29 {
    match horner(&coefficients(), part) {
        PolyReply::Value(sine) => sine,
        PolyReply::Overflow(_) => unreachable!(),
    }
}
