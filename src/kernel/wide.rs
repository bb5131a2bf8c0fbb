// Made by `make package` of crates/fixed_kernel/src/wide.rt, which is proved: changes go there.

//! Integers of up to 128 bits and a sign, with which the operations compute.

use crate::word::{Outcome, RawWord, Rounding, Word, outcome_of};

/// The integer `magnitude`, or `-magnitude` if `below_zero`.
#[derive(Clone, Copy)]
pub struct Wide {
    pub below_zero: bool,
    pub magnitude: u128,
}

impl Wide {
    /// Returns the value of a word.
    #[inline]
    #[must_use]
    pub fn of<T: RawWord>(word: T) -> Wide {
        Wide {
            below_zero: word.is_below_zero(),
            magnitude: word.magnitude() as u128,
        }
    }

    /// Returns the product of two words, which leaves room to add a third.
    #[inline]
    #[must_use]
    pub fn product<T: RawWord>(a: T, b: T) -> Wide {
        Wide::of(a).times(Wide::of(b))
    }

    /// Returns the sum. Precondition: the sum of both magnitudes has at most 128 bits.
    #[inline]
    #[must_use]
    pub fn plus(self, other: Wide) -> Wide {
        if self.below_zero == other.below_zero {
            Wide {
                below_zero: self.below_zero,
                magnitude: self.magnitude + other.magnitude,
            }
        } else if self.magnitude >= other.magnitude {
            Wide {
                below_zero: self.below_zero,
                magnitude: self.magnitude - other.magnitude,
            }
        } else {
            Wide {
                below_zero: other.below_zero,
                magnitude: other.magnitude - self.magnitude,
            }
        }
    }

    /// Returns the product. Precondition: it has at most 128 bits.
    #[inline]
    #[must_use]
    pub fn times(self, other: Wide) -> Wide {
        Wide {
            below_zero: self.below_zero != other.below_zero,
            magnitude: self.magnitude * other.magnitude,
        }
    }

    /// Returns the number times `2^by`. Preconditions: it has at most 128 bits, and `by` is below 128.
    #[inline]
    #[must_use]
    pub fn scaled(self, by: u32) -> Wide {
        Wide {
            below_zero: self.below_zero,
            magnitude: self.magnitude << by,
        }
    }

    /// Returns the quotient, rounded as named. Precondition: the divisor is not 0.
    #[must_use]
    pub fn rounded(self, divisor: Wide, rounding: Rounding) -> Wide {
        let (quotient, remainder) = divided(self.magnitude, divisor.magnitude);
        let below_zero = self.below_zero != divisor.below_zero;
        let more = step(
            rounding,
            below_zero,
            quotient,
            remainder,
            divisor.magnitude - 1,
        );
        Wide {
            below_zero,
            magnitude: quotient + more,
        }
    }

    /// Returns the number over `2^by`, rounded as named. Precondition: `by` is at most 128.
    #[must_use]
    pub fn rounded_at(self, by: u32, rounding: Rounding) -> Wide {
        if by < 128 {
            let divisor = Wide {
                below_zero: false,
                magnitude: 1 << by,
            };
            return self.rounded(divisor, rounding);
        }
        Wide {
            below_zero: self.below_zero,
            magnitude: step(rounding, self.below_zero, 0, self.magnitude, u128::MAX),
        }
    }

    /// Returns the outcome of every number that has the same outcome as this one in each word.
    #[must_use]
    pub fn outcome_alike<T: Word>(self) -> Outcome<T> {
        outcome_of(self.below_zero, self.magnitude)
    }

    /// Returns the number times `2^by`, or a number of more than 127 bits with the same lowest 64 bits. Precondition:
    /// `by` is at most 64.
    #[must_use]
    pub fn scaled_alike(self, by: u32) -> Wide {
        if self.magnitude < 1 << (127 - by) {
            return self.scaled(by);
        }
        let low = ((self.magnitude % (1 << 64)) << by) % (1 << 64);
        Wide {
            below_zero: self.below_zero,
            magnitude: (1 << 127) + low,
        }
    }

    /// Returns the outcome of the number in a word.
    #[must_use]
    pub fn outcome<T: Word>(self) -> Outcome<T> {
        outcome_of(self.below_zero, self.magnitude)
    }
}

/// Returns the quotient and the remainder of the magnitudes. If both have at most 64 bits, they are divided as words
/// of 64 bits, since a division of 128 bits takes many times as long.
#[inline]
fn divided(magnitude: u128, divisor: u128) -> (u128, u128) {
    let most = u64::MAX as u128;
    if magnitude <= most && divisor <= most {
        let (dividend, by) = (magnitude as u64, divisor as u64);
        ((dividend / by) as u128, (dividend % by) as u128)
    } else {
        (magnitude / divisor, magnitude % divisor)
    }
}

/// Returns 1 if the rounding makes the magnitude of a quotient greater than `quotient`, and otherwise 0. The divisor,
/// which may be `2^128`, is `last + 1`.
pub(crate) fn step(
    rounding: Rounding,
    below_zero: bool,
    quotient: u128,
    remainder: u128,
    last: u128,
) -> u128 {
    let past = match rounding {
        Rounding::Down => below_zero && remainder > 0,
        Rounding::Zero => false,
        Rounding::Even => {
            let short = last - remainder;
            remainder > short && (quotient % 2 == 1 || remainder - short > 1)
        }
    };
    past as u128
}
