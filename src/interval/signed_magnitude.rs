// Made by `make package` of crates/fixed_interval/src/signed_magnitude.rt, which is proved: changes go there.

//! Whole numbers of up to 128 bits and a sign, whose quotients are rounded up or down.

use crate::word::{Outcome, RawWord, Word, outcome_of};

/// The number `magnitude`, or minus it if `below_zero`.
#[derive(Clone, Copy)]
pub(crate) struct SignedMagnitude {
    pub(crate) below_zero: bool,
    pub(crate) magnitude: u128,
}

/// How an end is rounded outward: the low one down, and the high one up.
#[derive(Clone, Copy)]
pub(crate) enum Outward {
    Down,
    Up,
}

impl SignedMagnitude {
    /// Returns the number of a word.
    pub(crate) fn of<T: RawWord>(word: T) -> SignedMagnitude {
        SignedMagnitude {
            below_zero: word.is_below_zero(),
            magnitude: word.magnitude() as u128,
        }
    }

    /// Returns the number with the other sign.
    fn negated(self) -> SignedMagnitude {
        SignedMagnitude {
            below_zero: !self.below_zero,
            magnitude: self.magnitude,
        }
    }

    /// Returns the number times `2^by`. Preconditions: the result has at most 128 bits, and `by` is below 128.
    pub(crate) fn scaled(self, by: u32) -> SignedMagnitude {
        SignedMagnitude {
            below_zero: self.below_zero,
            magnitude: self.magnitude << by,
        }
    }

    /// Returns the quotient, rounded down. Precondition: the divisor is not 0.
    fn floor_over(self, divisor: SignedMagnitude) -> SignedMagnitude {
        if self.below_zero != divisor.below_zero && self.magnitude > 0 {
            SignedMagnitude {
                below_zero: true,
                magnitude: (self.magnitude - 1) / divisor.magnitude + 1,
            }
        } else {
            SignedMagnitude {
                below_zero: false,
                magnitude: self.magnitude / divisor.magnitude,
            }
        }
    }

    /// Returns the quotient, rounded up. Precondition: the divisor is not 0.
    fn ceiling_over(self, divisor: SignedMagnitude) -> SignedMagnitude {
        self.negated().floor_over(divisor).negated()
    }

    /// Returns the quotient, rounded in that direction. Precondition: the divisor is not 0.
    pub(crate) fn over(self, divisor: SignedMagnitude, way: Outward) -> SignedMagnitude {
        match way {
            Outward::Down => self.floor_over(divisor),
            Outward::Up => self.ceiling_over(divisor),
        }
    }

    /// Returns the outcome of the number in a word.
    pub(crate) fn outcome<T: Word>(self) -> Outcome<T> {
        outcome_of(self.below_zero, self.magnitude)
    }
}
