// Made by `make package` of crates/fixed_cast/src/order.rt, which is proved: changes go there.

//! Comparisons across formats, and with floats.

use crate::cast::numeric::Numeric;
use crate::convert::compare_of;
use crate::float::{Binary, compare_float_of};
use core::cmp::Ordering;

/// Comparisons of numbers of any format and integers. (In `fixed` these are operators between types.)
pub trait Order: Numeric {
    /// Returns the order of the number and another one.
    ///
    /// # Examples
    ///
    /// ```
    /// use std::cmp::Ordering;
    /// use zugyelmas::prelude::*;
    /// let number = FixedI8::<4>::from_bits(24); // 1.5
    ///
    /// assert_eq!(number.compare(2), Ordering::Less);
    /// // 1.5
    /// assert_eq!(number.compare(FixedU64::<63>::from_bits(3 << 62)), Ordering::Equal);
    /// ```
    ///
    /// # Proved
    ///
    /// ```text
    /// ensures { result ≡ exact_order (Self.units self) Self.FRACTION (N.units other) N.FRACTION }
    /// ```
    ///
    /// Definitions: [`exact_order`].
    ///
    /// [`exact_order`]: crate::definitions::convert_convert
    #[must_use]
    fn compare<N: Numeric>(self, other: N) -> Ordering;

    /// Returns whether both are the same number.
    ///
    /// # Examples
    ///
    /// ```
    /// use std::cmp::Ordering;
    /// use zugyelmas::prelude::*;
    /// let number = FixedI8::<4>::from_bits(24); // 1.5
    ///
    /// assert!(number.equals(FixedI16::<8>::from_bits(384))); // 1.5
    /// assert!(!number.equals(1));
    /// ```
    ///
    /// # Proved
    ///
    /// ```text
    /// ensures { IsTrue result ↔ (Self.units self *ℤ pos (2 ^ N.FRACTION)
    ///     ≡ N.units other *ℤ pos (2 ^ Self.FRACTION)) }
    /// ```
    #[must_use]
    fn equals<N: Numeric>(self, other: N) -> bool;

    /// Returns the order of the number and the exact value of a float, or `None` for a NaN. Infinities are beyond
    /// every number.
    ///
    /// # Examples
    ///
    /// ```
    /// use std::cmp::Ordering;
    /// use zugyelmas::prelude::*;
    /// let number = FixedI8::<4>::from_bits(24); // 1.5
    ///
    /// assert_eq!(number.compare_float(1.5), Some(Ordering::Equal));
    /// assert_eq!(number.compare_float(1.500001), Some(Ordering::Less));
    /// assert_eq!(number.compare_float(f64::NEG_INFINITY), Some(Ordering::Greater));
    /// assert_eq!(number.compare_float(f64::NAN), None);
    /// ```
    ///
    /// # Compile errors
    ///
    /// Compiles only if the fraction is at most the width.
    ///
    /// # Proved
    ///
    /// ```text
    /// requires { Self.FRACTION ≤ Self.Word.BITS }
    /// ensures { result ≡ float_order (Self.units self) Self.FRACTION (X.float other) }
    /// ```
    ///
    /// Definitions: [`float_order`].
    ///
    /// [`float_order`]: crate::definitions::float_rows
    #[must_use]
    fn compare_float<X: Binary>(self, other: X) -> Option<Ordering>;

    /// Returns whether the float is the same number.
    ///
    /// # Examples
    ///
    /// ```
    /// use std::cmp::Ordering;
    /// use zugyelmas::prelude::*;
    /// let number = FixedI8::<4>::from_bits(24); // 1.5
    ///
    /// assert!(number.equals_float(1.5_f32));
    /// assert!(!number.equals_float(f64::NAN));
    /// ```
    ///
    /// # Compile errors
    ///
    /// Compiles only if the fraction is at most the width.
    ///
    /// # Proved
    ///
    /// ```text
    /// requires { Self.FRACTION ≤ Self.Word.BITS }
    /// ensures { IsTrue result ↔ (float_order (Self.units self) Self.FRACTION (X.float other) ≡ Some Equal) }
    /// ```
    ///
    /// Definitions: [`float_order`].
    ///
    /// [`float_order`]: crate::definitions::float_rows
    #[must_use]
    fn equals_float<X: Binary>(self, other: X) -> bool;
}

impl<M: Numeric> Order for M {
    #[inline]
    fn compare<N: Numeric>(self, other: N) -> Ordering {
        compare_of(self.to_word(), M::FRACTION, other.to_word(), N::FRACTION)
    }

    #[inline]
    fn equals<N: Numeric>(self, other: N) -> bool {
        self.compare(other) == Ordering::Equal
    }

    #[inline]
    #[track_caller]
    fn compare_float<X: Binary>(self, other: X) -> Option<Ordering> {
        const {
            assert!(
                Self::FRACTION <= <Self::Word as crate::word::Valued>::BITS,
                "precondition: the fraction is at most the width"
            )
        };
        compare_float_of(self.to_word(), M::FRACTION, other)
    }

    #[inline]
    #[track_caller]
    fn equals_float<X: Binary>(self, other: X) -> bool {
        const {
            assert!(
                Self::FRACTION <= <Self::Word as crate::word::Valued>::BITS,
                "precondition: the fraction is at most the width"
            )
        };
        match self.compare_float(other) {
            Some(Ordering::Equal) => true,
            _ => false,
        }
    }
}
