// Made by `make package` of crates/fixed_word/src/digits.rt, which is proved: changes go there.

//! Unsigned words whose calls are counted.

use crate::word::ledger::{Ledger, Steps};
use crate::word::word::Valued;

/// An unsigned word of n bits. Each call counts one step in a ledger.
pub trait Digits<L: Ledger>: Valued {
    /// The value 0.
    const ZERO: Self;

    /// The value 1.
    const ONE: Self;

    /// Returns the sum, modulo `2^n`.
    ///
    /// # Examples
    ///
    /// ```
    /// use zugyelmas::word::{Count, Digits, Steps};
    /// let steps = &mut Steps::new(Count::new());
    ///
    /// assert_eq!(100_u8.add(50, steps), 150);
    /// assert_eq!(200_u8.add(100, steps), 44); // 300 - 256
    /// assert_eq!(steps.ledger().count(), 2);
    /// ```
    ///
    /// # Proved
    ///
    /// ```text
    /// ensures value { Self.value result
    ///     ≡ wrap false Self.BITS (Self.value self +ℤ Self.value other) }
    /// ensures in_range { InRange false Self.BITS (Self.value self) }
    /// ensures ticks { Ticks L.LAST (L.count steps.old) (L.count steps.new) }
    /// ```
    ///
    /// Definitions: [`InRange`], [`wrap`], [`Ticks`].
    ///
    /// [`InRange`]: crate::definitions::word_format
    /// [`wrap`]: crate::definitions::word_format
    /// [`Ticks`]: crate::definitions::word_ticks
    fn add(self, other: Self, steps: &mut Steps<L>) -> Self;

    /// Returns the difference, modulo `2^n`: plus `2^n` if it is negative.
    ///
    /// # Examples
    ///
    /// ```
    /// use zugyelmas::word::{Count, Digits, Steps};
    /// let steps = &mut Steps::new(Count::new());
    ///
    /// assert_eq!(100_u8.sub(50, steps), 50);
    /// assert_eq!(50_u8.sub(100, steps), 206); // -50 + 256
    /// assert_eq!(steps.ledger().count(), 2);
    /// ```
    ///
    /// # Proved
    ///
    /// ```text
    /// ensures value { Self.value result
    ///     ≡ wrap false Self.BITS (Self.value self -ℤ Self.value other) }
    /// ensures in_range { InRange false Self.BITS (Self.value self) }
    /// ensures ticks { Ticks L.LAST (L.count steps.old) (L.count steps.new) }
    /// ```
    ///
    /// Definitions: [`InRange`], [`wrap`], [`Ticks`].
    ///
    /// [`InRange`]: crate::definitions::word_format
    /// [`wrap`]: crate::definitions::word_format
    /// [`Ticks`]: crate::definitions::word_ticks
    fn sub(self, other: Self, steps: &mut Steps<L>) -> Self;

    /// Returns the value times `2^by`, modulo `2^n`. Precondition: `by` is below n.
    ///
    /// # Examples
    ///
    /// ```
    /// use zugyelmas::word::{Count, Digits, Steps};
    /// let steps = &mut Steps::new(Count::new());
    ///
    /// assert_eq!(5_u8.shl(3, steps), 40);
    /// assert_eq!(200_u8.shl(1, steps), 144); // 400 - 256
    /// ```
    ///
    /// ```should_panic
    /// # use zugyelmas::word::{Count, Digits, Steps};
    /// # let steps = &mut Steps::new(Count::new());
    /// # std::panic::set_hook(Box::new(|_| {}));
    /// 5_u8.shl(8, steps); // the shift is not below the width
    /// ```
    ///
    /// # Panics
    ///
    /// Panics unless the shift is below the width.
    ///
    /// # Proved
    ///
    /// ```text
    /// requires { by < Self.BITS }
    /// ensures value { Self.value result ≡ wrap false Self.BITS (Self.value self *ℤ pos (2 ^ by)) }
    /// ensures in_range { InRange false Self.BITS (Self.value self) }
    /// ensures ticks { Ticks L.LAST (L.count steps.old) (L.count steps.new) }
    /// ```
    ///
    /// Definitions: [`InRange`], [`wrap`], [`Ticks`].
    ///
    /// [`InRange`]: crate::definitions::word_format
    /// [`wrap`]: crate::definitions::word_format
    /// [`Ticks`]: crate::definitions::word_ticks
    fn shl(self, by: u32, steps: &mut Steps<L>) -> Self;

    /// Returns the value over `2^by`, rounded down. Precondition: `by` is below n.
    ///
    /// # Examples
    ///
    /// ```
    /// use zugyelmas::word::{Count, Digits, Steps};
    /// let steps = &mut Steps::new(Count::new());
    ///
    /// assert_eq!(43_u8.shr(3, steps), 5); // 5.375, rounded down
    /// ```
    ///
    /// ```should_panic
    /// # use zugyelmas::word::{Count, Digits, Steps};
    /// # let steps = &mut Steps::new(Count::new());
    /// # std::panic::set_hook(Box::new(|_| {}));
    /// 43_u8.shr(8, steps); // the shift is not below the width
    /// ```
    ///
    /// # Panics
    ///
    /// Panics unless the shift is below the width.
    ///
    /// # Proved
    ///
    /// ```text
    /// requires { by < Self.BITS }
    /// ensures value { Self.value result ≡ floor_quotient (Self.value self) (2 ^ by) }
    /// ensures in_range { InRange false Self.BITS (Self.value self) }
    /// ensures ticks { Ticks L.LAST (L.count steps.old) (L.count steps.new) }
    /// ```
    ///
    /// Definitions: [`InRange`], [`floor_quotient`], [`Ticks`].
    ///
    /// [`InRange`]: crate::definitions::word_format
    /// [`floor_quotient`]: crate::definitions::word_quotient
    /// [`Ticks`]: crate::definitions::word_ticks
    fn shr(self, by: u32, steps: &mut Steps<L>) -> Self;

    /// Returns whether the value is at most the other one.
    ///
    /// # Examples
    ///
    /// ```
    /// use zugyelmas::word::{Count, Digits, Steps};
    /// let steps = &mut Steps::new(Count::new());
    ///
    /// assert!(5_u8.at_most(5, steps));
    /// assert!(!6_u8.at_most(5, steps));
    /// assert_eq!(steps.ledger().count(), 2);
    /// ```
    ///
    /// # Proved
    ///
    /// ```text
    /// ensures value { IsTrue result ↔ (Self.value self ≤ℤ Self.value other) }
    /// ensures in_range { InRange false Self.BITS (Self.value self) }
    /// ensures ticks { Ticks L.LAST (L.count steps.old) (L.count steps.new) }
    /// ```
    ///
    /// Definitions: [`InRange`], [`Ticks`].
    ///
    /// [`InRange`]: crate::definitions::word_format
    /// [`Ticks`]: crate::definitions::word_ticks
    fn at_most(self, other: Self, steps: &mut Steps<L>) -> bool;

    /// Returns how many of the most significant bits are 0.
    ///
    /// # Examples
    ///
    /// ```
    /// use zugyelmas::word::{Count, Digits, Steps};
    /// let steps = &mut Steps::new(Count::new());
    ///
    /// assert_eq!(Digits::leading_zeros(5_u8, steps), 5);
    /// assert_eq!(Digits::leading_zeros(0_u8, steps), 8);
    /// assert_eq!(steps.ledger().count(), 2);
    /// ```
    ///
    /// # Proved
    ///
    /// ```text
    /// ensures value { IsLeadingZeros Self.BITS (Self.value self) result }
    /// ensures in_range { InRange false Self.BITS (Self.value self) }
    /// ensures ticks { Ticks L.LAST (L.count steps.old) (L.count steps.new) }
    /// ```
    ///
    /// Definitions: [`InRange`], [`IsLeadingZeros`], [`Ticks`].
    ///
    /// [`InRange`]: crate::definitions::word_format
    /// [`IsLeadingZeros`]: crate::definitions::word_digit
    /// [`Ticks`]: crate::definitions::word_ticks
    fn leading_zeros(self, steps: &mut Steps<L>) -> u32;

    /// Returns the product, or `None` if it does not fit.
    ///
    /// # Examples
    ///
    /// ```
    /// use zugyelmas::word::{Count, Digits, Steps};
    /// let steps = &mut Steps::new(Count::new());
    ///
    /// assert_eq!(15_u8.times(17, steps), Some(255));
    /// assert_eq!(16_u8.times(16, steps), None); // 256 does not fit
    /// assert_eq!(steps.ledger().count(), 2);
    /// ```
    ///
    /// # Proved
    ///
    /// ```text
    /// ensures value { IsWordOf Self.value Self.BITS (Self.value self *ℤ Self.value other) result }
    /// ensures in_range { InRange false Self.BITS (Self.value self) }
    /// ensures ticks { Ticks L.LAST (L.count steps.old) (L.count steps.new) }
    /// ```
    ///
    /// Definitions: [`InRange`], [`IsWordOf`], [`Ticks`].
    ///
    /// [`InRange`]: crate::definitions::word_format
    /// [`IsWordOf`]: crate::definitions::word_digit
    /// [`Ticks`]: crate::definitions::word_ticks
    fn times(self, other: Self, steps: &mut Steps<L>) -> Option<Self>;

    /// Returns the word with that value, or `None` if it does not fit.
    ///
    /// # Examples
    ///
    /// ```
    /// use zugyelmas::word::{Count, Digits, Steps};
    /// let steps = &mut Steps::new(Count::new());
    ///
    /// assert_eq!(u8::literal(255, steps), Some(255));
    /// assert_eq!(u8::literal(256, steps), None);
    /// assert_eq!(steps.ledger().count(), 2);
    /// ```
    ///
    /// # Proved
    ///
    /// ```text
    /// ensures value { IsWordOf Self.value Self.BITS (pos number) result }
    /// ensures ticks { Ticks L.LAST (L.count steps.old) (L.count steps.new) }
    /// ```
    ///
    /// Definitions: [`IsWordOf`], [`Ticks`].
    ///
    /// [`IsWordOf`]: crate::definitions::word_digit
    /// [`Ticks`]: crate::definitions::word_ticks
    fn literal(number: u64, steps: &mut Steps<L>) -> Option<Self>;
}

impl<L: Ledger> Digits<L> for u8 {
    const ZERO: u8 = 0;

    const ONE: u8 = 1;

    fn add(self, other: u8, steps: &mut Steps<L>) -> u8 {
        steps.tick();
        self.wrapping_add(other)
    }

    fn sub(self, other: u8, steps: &mut Steps<L>) -> u8 {
        steps.tick();
        self.wrapping_sub(other)
    }

    #[track_caller]
    fn shl(self, by: u32, steps: &mut Steps<L>) -> u8 {
        assert!(
            by < Self::BITS,
            "precondition: the shift is below the width"
        );
        steps.tick();
        self << by
    }

    #[track_caller]
    fn shr(self, by: u32, steps: &mut Steps<L>) -> u8 {
        assert!(
            by < Self::BITS,
            "precondition: the shift is below the width"
        );
        steps.tick();
        self >> by
    }

    fn at_most(self, other: u8, steps: &mut Steps<L>) -> bool {
        steps.tick();
        self <= other
    }

    fn leading_zeros(self, steps: &mut Steps<L>) -> u32 {
        steps.tick();
        self.leading_zeros()
    }

    fn times(self, other: u8, steps: &mut Steps<L>) -> Option<u8> {
        steps.tick();
        self.checked_mul(other)
    }

    fn literal(number: u64, steps: &mut Steps<L>) -> Option<u8> {
        steps.tick();
        if number <= u8::MAX as u64 {
            Some(number as u8)
        } else {
            None
        }
    }
}

impl<L: Ledger> Digits<L> for u16 {
    const ZERO: u16 = 0;

    const ONE: u16 = 1;

    fn add(self, other: u16, steps: &mut Steps<L>) -> u16 {
        steps.tick();
        self.wrapping_add(other)
    }

    fn sub(self, other: u16, steps: &mut Steps<L>) -> u16 {
        steps.tick();
        self.wrapping_sub(other)
    }

    #[track_caller]
    fn shl(self, by: u32, steps: &mut Steps<L>) -> u16 {
        assert!(
            by < Self::BITS,
            "precondition: the shift is below the width"
        );
        steps.tick();
        self << by
    }

    #[track_caller]
    fn shr(self, by: u32, steps: &mut Steps<L>) -> u16 {
        assert!(
            by < Self::BITS,
            "precondition: the shift is below the width"
        );
        steps.tick();
        self >> by
    }

    fn at_most(self, other: u16, steps: &mut Steps<L>) -> bool {
        steps.tick();
        self <= other
    }

    fn leading_zeros(self, steps: &mut Steps<L>) -> u32 {
        steps.tick();
        self.leading_zeros()
    }

    fn times(self, other: u16, steps: &mut Steps<L>) -> Option<u16> {
        steps.tick();
        self.checked_mul(other)
    }

    fn literal(number: u64, steps: &mut Steps<L>) -> Option<u16> {
        steps.tick();
        if number <= u16::MAX as u64 {
            Some(number as u16)
        } else {
            None
        }
    }
}

impl<L: Ledger> Digits<L> for u32 {
    const ZERO: u32 = 0;

    const ONE: u32 = 1;

    fn add(self, other: u32, steps: &mut Steps<L>) -> u32 {
        steps.tick();
        self.wrapping_add(other)
    }

    fn sub(self, other: u32, steps: &mut Steps<L>) -> u32 {
        steps.tick();
        self.wrapping_sub(other)
    }

    #[track_caller]
    fn shl(self, by: u32, steps: &mut Steps<L>) -> u32 {
        assert!(
            by < Self::BITS,
            "precondition: the shift is below the width"
        );
        steps.tick();
        self << by
    }

    #[track_caller]
    fn shr(self, by: u32, steps: &mut Steps<L>) -> u32 {
        assert!(
            by < Self::BITS,
            "precondition: the shift is below the width"
        );
        steps.tick();
        self >> by
    }

    fn at_most(self, other: u32, steps: &mut Steps<L>) -> bool {
        steps.tick();
        self <= other
    }

    fn leading_zeros(self, steps: &mut Steps<L>) -> u32 {
        steps.tick();
        self.leading_zeros()
    }

    fn times(self, other: u32, steps: &mut Steps<L>) -> Option<u32> {
        steps.tick();
        self.checked_mul(other)
    }

    fn literal(number: u64, steps: &mut Steps<L>) -> Option<u32> {
        steps.tick();
        if number <= u32::MAX as u64 {
            Some(number as u32)
        } else {
            None
        }
    }
}

impl<L: Ledger> Digits<L> for u64 {
    const ZERO: u64 = 0;

    const ONE: u64 = 1;

    fn add(self, other: u64, steps: &mut Steps<L>) -> u64 {
        steps.tick();
        self.wrapping_add(other)
    }

    fn sub(self, other: u64, steps: &mut Steps<L>) -> u64 {
        steps.tick();
        self.wrapping_sub(other)
    }

    #[track_caller]
    fn shl(self, by: u32, steps: &mut Steps<L>) -> u64 {
        assert!(
            by < Self::BITS,
            "precondition: the shift is below the width"
        );
        steps.tick();
        self << by
    }

    #[track_caller]
    fn shr(self, by: u32, steps: &mut Steps<L>) -> u64 {
        assert!(
            by < Self::BITS,
            "precondition: the shift is below the width"
        );
        steps.tick();
        self >> by
    }

    fn at_most(self, other: u64, steps: &mut Steps<L>) -> bool {
        steps.tick();
        self <= other
    }

    fn leading_zeros(self, steps: &mut Steps<L>) -> u32 {
        steps.tick();
        self.leading_zeros()
    }

    fn times(self, other: u64, steps: &mut Steps<L>) -> Option<u64> {
        steps.tick();
        self.checked_mul(other)
    }

    fn literal(number: u64, steps: &mut Steps<L>) -> Option<u64> {
        steps.tick();
        Some(number)
    }
}
