// Made by `make package` of crates/tests_kernel/src/chained.rt, which is proved: changes go there.

//! A byte that knows the length of the longest chain of calls that made it.

use crate::word::{Digits, Ledger, Steps, Valued};

#[derive(Clone, Copy)]
pub struct Chained {
    pub word: u8,
    pub chain: u64,
}

/// One more than the greater of two lengths.
fn longer(a: u64, b: u64) -> u64 {
    a.max(b).saturating_add(1)
}

impl Valued for Chained {
    const BITS: u32 = 8;
}

impl<L: Ledger> Digits<L> for Chained {
    const ZERO: Chained = Chained { word: 0, chain: 0 };

    const ONE: Chained = Chained { word: 1, chain: 0 };

    fn add(self, other: Chained, steps: &mut Steps<L>) -> Chained {
        Chained {
            word: self.word.add(other.word, steps),
            chain: longer(self.chain, other.chain),
        }
    }

    fn sub(self, other: Chained, steps: &mut Steps<L>) -> Chained {
        Chained {
            word: self.word.sub(other.word, steps),
            chain: longer(self.chain, other.chain),
        }
    }

    fn shl(self, by: u32, steps: &mut Steps<L>) -> Chained {
        Chained {
            word: self.word.shl(by, steps),
            chain: longer(self.chain, 0),
        }
    }

    fn shr(self, by: u32, steps: &mut Steps<L>) -> Chained {
        Chained {
            word: self.word.shr(by, steps),
            chain: longer(self.chain, 0),
        }
    }

    fn at_most(self, other: Chained, steps: &mut Steps<L>) -> bool {
        self.word.at_most(other.word, steps)
    }

    fn leading_zeros(self, steps: &mut Steps<L>) -> u32 {
        Digits::leading_zeros(self.word, steps)
    }

    fn times(self, other: Chained, steps: &mut Steps<L>) -> Option<Chained> {
        match self.word.times(other.word, steps) {
            Some(word) => Some(Chained {
                word,
                chain: longer(self.chain, other.chain),
            }),
            None => None,
        }
    }

    fn literal(number: u64, steps: &mut Steps<L>) -> Option<Chained> {
        match <u8 as Digits<L>>::literal(number, steps) {
            Some(word) => Some(Chained { word, chain: 1 }),
            None => None,
        }
    }
}
