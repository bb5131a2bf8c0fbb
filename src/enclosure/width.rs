// Made by `make package` of crates/fixed_enclosure/src/width.rt, which is proved: changes go there.

//! The width of an enclosure.

use crate::enclosure::enclosure::Enclosure;
use crate::num::Fixed;
use crate::word::Word;

impl<T: Word, const F: u32> Enclosure<T, F> {
    /// Returns the high end minus the low end, exactly: the unsigned format has room for it.
    ///
    /// # Examples
    ///
    /// ```
    /// use zugyelmas::Enclosure;
    /// use zugyelmas::prelude::*;
    /// type Number = FixedI8<4>; // from -8 to 7.9375
    /// let number = |value: f64| Number::from_num(value);
    /// let enclosure = |low, high| Enclosure::new(number(low), number(high)).expect("ends in order");
    ///
    /// assert_eq!(enclosure(1.0, 1.5).width(), FixedU8::from_num(0.5));
    /// let all = Enclosure::new(Number::MIN, Number::MAX).expect("ends in order");
    /// assert_eq!(all.width(), FixedU8::from_num(15.9375)); // it fits the unsigned format
    /// ```
    ///
    /// # Proved
    ///
    /// ```text
    /// ensures { T.Unsigned.value result.bits ≡ T.value self.hi -ℤ T.value self.lo }
    /// ```
    #[must_use]
    pub fn width(self) -> Fixed<T::Unsigned, F> {
        self.high().abs_diff(self.low())
    }
}
