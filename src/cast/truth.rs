// Made by `make package` of crates/fixed_cast/src/truth.rt, which is proved: changes go there.

//! Conversions from `bool`: `true` is 1 and `false` is 0.

use crate::cast::source::Source;
use crate::convert::Castable;
use crate::word::{Outcome, Rounding};

impl Source for bool {
    const DEFAULT: Rounding = Rounding::Down;

    #[inline]
    fn outcome<T: Castable>(self, frac: u32, rounding: Rounding) -> Option<Outcome<T>> {
        u8::from(self).outcome(frac, rounding)
    }

    #[inline]
    #[track_caller]
    fn saturated<T: Castable>(self, frac: u32, rounding: Rounding) -> T {
        u8::from(self).saturated(frac, rounding)
    }
}
