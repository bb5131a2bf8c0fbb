//! Answers of both sides as whole numbers, and what was compared.

use std::collections::BTreeMap;
use std::fmt::Debug;

/// An answer by its bits: a number, and beside it whether there is one and what the verdict is.
#[derive(Clone, Copy, Debug, PartialEq, Eq)]
pub struct Answer {
    pub number: Option<i128>,
    pub verdict: Option<bool>,
}

/// What can be compared.
pub trait Told {
    fn told(self) -> Answer;
}

macro_rules! told_as_numbers {
    ($($type:ty)*) => {$(
        impl Told for $type {
            fn told(self) -> Answer {
                Answer { number: Some(self as i128), verdict: None }
            }
        }
    )*};
}

told_as_numbers!(i8 i16 i32 i64 u8 u16 u32 u64 i128 bool);

macro_rules! told_by_bits {
    ($($type:ident)*) => {$(
        impl<Frac> Told for fixed::$type<Frac> {
            fn told(self) -> Answer {
                self.to_bits().told()
            }
        }
    )*};
}

told_by_bits!(FixedI8 FixedI16 FixedI32 FixedI64 FixedU8 FixedU16 FixedU32 FixedU64);

impl<T: zugyelmas::word::Word + Told, const F: u32> Told for zugyelmas::Fixed<T, F> {
    fn told(self) -> Answer {
        self.to_bits().told()
    }
}

impl<A: Told> Told for Option<A> {
    fn told(self) -> Answer {
        self.map_or(Answer { number: None, verdict: None }, A::told)
    }
}

impl<A: Told> Told for (A, bool) {
    fn told(self) -> Answer {
        Answer { verdict: Some(self.1), ..self.0.told() }
    }
}

/// Calls that differ as `docs/DIFFERENCES.md` says, on signed words.
const EXPECTED: [&str; 5] = [
    "checked_div_euclid",
    "overflowing_div_euclid",
    "wrapping_div_euclid",
    "saturating_div_euclid",
    "saturating_div_euclid_int",
];

/// What was compared, and of each call that differs how often and where first.
#[derive(Default)]
pub struct Tally {
    compared: u64,
    differing: BTreeMap<(&'static str, bool), (u64, String)>,
}

impl Tally {
    /// Compares an answer of this package with the crate's.
    pub fn compare(&mut self, call: &'static str, signed: bool, ours: impl Told, theirs: impl Told, at: impl Debug) {
        self.compared += 1;
        let (ours, theirs) = (ours.told(), theirs.told());
        if ours != theirs {
            let first = || (0, format!("at {at:?} here {ours:?}, the crate {theirs:?}"));
            self.differing.entry((call, signed)).or_insert_with(first).0 += 1;
        }
    }

    /// Prints what was compared and what differs, and answers whether nothing else than expected does.
    pub fn report(&self) -> bool {
        println!("{} answers were compared", self.compared);
        let mut as_expected = true;
        for ((call, signed), (count, first)) in &self.differing {
            let is_expected = *signed && EXPECTED.contains(call);
            as_expected &= is_expected;
            let words = if *signed { "signed" } else { "unsigned" };
            let note = if is_expected { "as docs/DIFFERENCES.md says" } else { "UNEXPECTED" };
            println!("{call} of {words} words differs {count} times, {note}; first {first}");
        }
        as_expected
    }
}
