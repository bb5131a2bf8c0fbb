// Made by `make package` of crates/fixed_table/src/table.rt, which is proved: changes go there.

//! Tables of values.

use crate::num::Fixed;
use crate::table::distance::units_above;
use crate::table::line::interpolate_of;
use crate::word::{RawWord, Valued, Word};

/// A function by the table of its values. Its arguments have G fraction bits, and its values have F. The first value is
/// that at the point `first`, and each next value is that at a point `2^step` units of the argument further.
pub struct Table<'a, X: RawWord, const G: u32, T: Word, const F: u32> {
    /// The first point.
    pub first: Fixed<X, G>,
    /// The binary logarithm of the distance between two points, in units of the argument.
    pub step: u32,
    /// The values at the points.
    pub values: &'a [Fixed<T, F>],
}

impl<'a, X: RawWord, const G: u32, T: Word, const F: u32> Table<'a, X, G, T, F> {
    /// Returns the value at `x` on the line between the points around `x`, rounded down, so that less than one unit is
    /// lost. If `x` lies below the first point, returns the first value, and if `x` lies above the last point, the last
    /// value. Preconditions: there is a value, and `step` is below the width of values.
    ///
    /// # Examples
    ///
    /// ```
    /// use zugyelmas::prelude::*;
    /// use zugyelmas::table::Table;
    /// // Degrees at 0, 256, 512 and 768 counts.
    /// let degrees = FixedI16::<4>::from_num::<f64>;
    /// let values = [degrees(-10.0), degrees(0.0), degrees(20.0), degrees(70.0)];
    /// let table = Table { first: FixedU16::<0>::ZERO, step: 8, values: &values };
    /// let counts = FixedU16::<0>::from_bits;
    ///
    /// assert_eq!(table.at(counts(256)), degrees(0.0));
    /// assert_eq!(table.at(counts(640)), degrees(45.0)); // halfway from 20 to 70
    /// assert_eq!(table.at(counts(1)), degrees(-10.0)); // -9.96, rounded down
    /// assert_eq!(table.at(counts(4095)), degrees(70.0)); // above the last point
    /// ```
    ///
    /// ```should_panic
    /// # use zugyelmas::prelude::*;
    /// # use zugyelmas::table::Table;
    /// # // Degrees at 0, 256, 512 and 768 counts.
    /// # let degrees = FixedI16::<4>::from_num::<f64>;
    /// # let values = [degrees(-10.0), degrees(0.0), degrees(20.0), degrees(70.0)];
    /// # let table = Table { first: FixedU16::<0>::ZERO, step: 8, values: &values };
    /// # let counts = FixedU16::<0>::from_bits;
    /// # std::panic::set_hook(Box::new(|_| {}));
    /// Table { values: &values[..0], ..table }.at(counts(1)); // no value
    /// ```
    ///
    /// # Panics
    ///
    /// Panics unless there is a value, and the step is below the width.
    ///
    /// # Proved
    ///
    /// ```text
    /// requires some { 0 < length self.now.values.now }
    /// requires step { self.now.step < T.BITS }
    /// ensures { T.value result.bits ≡ interpolated self.now.step (map (λ v. T.value v.bits) self.now.values.now)
    ///     (above_zero (X.value x.bits -ℤ X.value self.now.first.bits)) }
    /// ```
    ///
    /// Definitions: [`above_zero`], [`interpolated`].
    ///
    /// [`above_zero`]: crate::definitions::table_interpolation
    /// [`interpolated`]: crate::definitions::table_interpolation
    #[track_caller]
    #[must_use]
    pub fn at(&self, x: Fixed<X, G>) -> Fixed<T, F> {
        assert!(!self.values.is_empty(), "precondition: there is a value");
        assert!(
            self.step < T::BITS,
            "precondition: the step is below the width"
        );
        let units = units_above(x.bits, self.first.bits);
        let index = units >> self.step;
        let last = self.values.len() - 1;
        if index >= last as u64 {
            return Fixed {
                bits: value_at(self.values, last),
            };
        }
        let at = index as usize;
        let start = value_at(self.values, at);
        let end = value_at(self.values, at + 1);
        Fixed {
            bits: interpolate_of(start, end, part_past(units, self.step), self.step),
        }
    }

    /// Returns the value at `x`, as `at` does, or `None` if `x` lies below the first point or above the last one.
    /// Preconditions: there is a value, and `step` is below the width of values.
    ///
    /// # Examples
    ///
    /// ```
    /// use zugyelmas::prelude::*;
    /// use zugyelmas::table::Table;
    /// // Degrees at 0, 256, 512 and 768 counts.
    /// let degrees = FixedI16::<4>::from_num::<f64>;
    /// let values = [degrees(-10.0), degrees(0.0), degrees(20.0), degrees(70.0)];
    /// let table = Table { first: FixedU16::<0>::ZERO, step: 8, values: &values };
    /// let counts = FixedU16::<0>::from_bits;
    ///
    /// assert_eq!(table.checked_at(counts(768)), Some(degrees(70.0)));
    /// assert_eq!(table.checked_at(counts(769)), None);
    /// ```
    ///
    /// ```should_panic
    /// # use zugyelmas::prelude::*;
    /// # use zugyelmas::table::Table;
    /// # // Degrees at 0, 256, 512 and 768 counts.
    /// # let degrees = FixedI16::<4>::from_num::<f64>;
    /// # let values = [degrees(-10.0), degrees(0.0), degrees(20.0), degrees(70.0)];
    /// # let table = Table { first: FixedU16::<0>::ZERO, step: 8, values: &values };
    /// # let counts = FixedU16::<0>::from_bits;
    /// # std::panic::set_hook(Box::new(|_| {}));
    /// Table { step: 16, ..table }.checked_at(counts(1)); // points too far apart
    /// ```
    ///
    /// # Panics
    ///
    /// Panics unless there is a value, and the step is below the width.
    ///
    /// # Proved
    ///
    /// ```text
    /// requires some { 0 < length self.now.values.now }
    /// requires step { self.now.step < T.BITS }
    /// ensures { option_map (λ v. T.value v.bits) result
    ///     ≡ (if is_between_ends self.now.step (length self.now.values.now) (X.value self.now.first.bits) (X.value x.bits)
    ///     then Some (interpolated self.now.step (map (λ v. T.value v.bits) self.now.values.now)
    ///     (above_zero (X.value x.bits -ℤ X.value self.now.first.bits))) else None) }
    /// ```
    ///
    /// Definitions: [`above_zero`], [`interpolated`], [`is_between_ends`].
    ///
    /// [`above_zero`]: crate::definitions::table_interpolation
    /// [`interpolated`]: crate::definitions::table_interpolation
    /// [`is_between_ends`]: crate::definitions::table_interpolation
    #[track_caller]
    #[must_use]
    pub fn checked_at(&self, x: Fixed<X, G>) -> Option<Fixed<T, F>> {
        assert!(!self.values.is_empty(), "precondition: there is a value");
        assert!(
            self.step < T::BITS,
            "precondition: the step is below the width"
        );
        if self.contains(x) {
            Some(self.at(x))
        } else {
            None
        }
    }

    /// Returns whether `x` lies between the first point and the last, or is one of them. Preconditions: there is a
    /// value, and `step` is below the width of values.
    ///
    /// # Examples
    ///
    /// ```
    /// use zugyelmas::prelude::*;
    /// use zugyelmas::table::Table;
    /// // Degrees at 0, 256, 512 and 768 counts.
    /// let degrees = FixedI16::<4>::from_num::<f64>;
    /// let values = [degrees(-10.0), degrees(0.0), degrees(20.0), degrees(70.0)];
    /// let table = Table { first: FixedU16::<0>::ZERO, step: 8, values: &values };
    /// let counts = FixedU16::<0>::from_bits;
    ///
    /// assert!(table.contains(counts(0)) && table.contains(counts(768)));
    /// assert!(!table.contains(counts(769)));
    /// ```
    ///
    /// ```should_panic
    /// # use zugyelmas::prelude::*;
    /// # use zugyelmas::table::Table;
    /// # // Degrees at 0, 256, 512 and 768 counts.
    /// # let degrees = FixedI16::<4>::from_num::<f64>;
    /// # let values = [degrees(-10.0), degrees(0.0), degrees(20.0), degrees(70.0)];
    /// # let table = Table { first: FixedU16::<0>::ZERO, step: 8, values: &values };
    /// # let counts = FixedU16::<0>::from_bits;
    /// # std::panic::set_hook(Box::new(|_| {}));
    /// Table { values: &values[..0], ..table }.contains(counts(1)); // no value
    /// ```
    ///
    /// # Panics
    ///
    /// Panics unless there is a value, and the step is below the width.
    ///
    /// # Proved
    ///
    /// ```text
    /// requires some { 0 < length self.now.values.now }
    /// requires step { self.now.step < T.BITS }
    /// ensures { result ≡ is_between_ends self.now.step (length self.now.values.now)
    ///     (X.value self.now.first.bits) (X.value x.bits) }
    /// ```
    ///
    /// Definitions: [`is_between_ends`].
    ///
    /// [`is_between_ends`]: crate::definitions::table_interpolation
    #[track_caller]
    #[must_use]
    pub fn contains(&self, x: Fixed<X, G>) -> bool {
        assert!(!self.values.is_empty(), "precondition: there is a value");
        assert!(
            self.step < T::BITS,
            "precondition: the step is below the width"
        );
        let units = units_above(x.bits, self.first.bits);
        let last = self.values.len() as u64 - 1;
        units_above(self.first.bits, x.bits) == 0 && reaches(last, self.step, units)
    }
}

/// Returns whether `last` times `2^step` is at least `units`.
fn reaches(last: u64, step: u32, units: u64) -> bool {
    let index = units >> step;
    index < last || (index == last && index << step == units)
}

/// Returns the value at the point `at`.
#[inline]
fn value_at<T: RawWord, const F: u32>(values: &[Fixed<T, F>], at: usize) -> T {
    values[at].bits
}

/// Returns how many units are left over from whole steps.
#[inline]
fn part_past(units: u64, step: u32) -> u64 {
    units - (units >> step << step)
}
