// Made by `make package` of crates/fixed_cast/src/mul_into.rt, which is proved: changes go there.

//! Products of two numbers of any formats, in a third format.

use crate::cast::numeric::Numeric;
use crate::cast::policies::{
    checked_num, exact_num, overflowing_num, saturating_num, strict_num, wrapping_num,
};
use crate::convert::mul_into_of;
use crate::word::{Outcome, Rounding};

/// Products of two numbers of any formats, or integers, in a third format, by each policy. The exact product is
/// rounded once: down, or as named in the forms `.._round`. Precondition of each call: the fractions of both factors
/// are at most their widths. (`fixed` does not have these calls.)
pub trait MulInto: Numeric {
    /// Returns the product, rounded down. Precondition: it fits.
    ///
    /// # Examples
    ///
    /// ```
    /// use zugyelmas::prelude::*;
    /// type Number = FixedI8<4>; // from -8 to 7.9375
    /// let number = Number::from_num::<f64>;
    ///
    /// assert_eq!(number(1.5).mul_into::<_, FixedI16<8>>(FixedI32::<16>::from_num(2.25)), FixedI16::from_num(3.375));
    /// // -0.03125, rounded down
    /// assert_eq!(number(-0.0625).mul_into::<_, FixedI16<4>>(FixedI32::<16>::from_num(0.5)), FixedI16::from_bits(-1));
    /// ```
    ///
    /// # Compile errors
    ///
    /// Compiles only if the fraction is at most the width, and the fraction of `rhs` is at most its width.
    ///
    /// # Panics
    ///
    /// With debug assertions, panics unless there is a number and it fits. Without them, the result is wrapped.
    ///
    /// # Proved
    ///
    /// ```text
    /// requires fraction { Self.FRACTION ≤ Self.Word.BITS }
    /// requires rhs_fraction { B.FRACTION ≤ B.Word.BITS }
    /// requires fits { IsSome (checked D.Word.SIGNED D.Word.BITS
    ///     (Some (rounded_mul_into (Self.units self) Self.FRACTION (B.units rhs) B.FRACTION D.FRACTION Down))) }
    /// ensures { Some (D.units result)
    ///     ≡ Some (rounded_mul_into (Self.units self) Self.FRACTION (B.units rhs) B.FRACTION D.FRACTION Down) }
    /// ```
    ///
    /// Definitions: [`checked`], [`rounded_mul_into`].
    ///
    /// [`checked`]: crate::definitions::word_policies
    /// [`rounded_mul_into`]: crate::definitions::convert_convert
    #[must_use]
    fn mul_into<B: Numeric, D: Numeric>(self, rhs: B) -> D;

    /// Returns the product, rounded down, or `None` if it does not fit.
    ///
    /// # Examples
    ///
    /// ```
    /// use zugyelmas::prelude::*;
    /// type Number = FixedI8<4>; // from -8 to 7.9375
    /// let number = Number::from_num::<f64>;
    ///
    /// assert_eq!(number(1.5).checked_mul_into::<_, FixedI16<8>>(FixedI32::<16>::from_num(2.25)), Some(FixedI16::from_num(3.375)));
    /// // -0.03125, rounded down
    /// assert_eq!(number(-0.0625).checked_mul_into::<_, FixedI16<4>>(FixedI32::<16>::from_num(0.5)), Some(FixedI16::from_bits(-1)));
    /// assert_eq!(number(1.5).checked_mul_into::<_, Number>(9), None); // 13.5 does not fit
    /// ```
    ///
    /// # Compile errors
    ///
    /// Compiles only if the fraction is at most the width, and the fraction of `rhs` is at most its width.
    ///
    /// # Proved
    ///
    /// ```text
    /// requires fraction { Self.FRACTION ≤ Self.Word.BITS }
    /// requires rhs_fraction { B.FRACTION ≤ B.Word.BITS }
    /// ensures { option_map D.units result ≡ checked D.Word.SIGNED D.Word.BITS
    ///     (Some (rounded_mul_into (Self.units self) Self.FRACTION (B.units rhs) B.FRACTION D.FRACTION Down)) }
    /// ```
    ///
    /// Definitions: [`checked`], [`rounded_mul_into`].
    ///
    /// [`checked`]: crate::definitions::word_policies
    /// [`rounded_mul_into`]: crate::definitions::convert_convert
    #[must_use]
    fn checked_mul_into<B: Numeric, D: Numeric>(self, rhs: B) -> Option<D>;

    /// Returns the product, rounded down and wrapped, and whether it does not fit.
    ///
    /// # Examples
    ///
    /// ```
    /// use zugyelmas::prelude::*;
    /// type Number = FixedI8<4>; // from -8 to 7.9375
    /// let number = Number::from_num::<f64>;
    ///
    /// assert_eq!(number(1.5).overflowing_mul_into::<_, FixedI16<8>>(FixedI32::<16>::from_num(2.25)), (FixedI16::from_num(3.375), false));
    /// // -0.03125, rounded down
    /// assert_eq!(number(-0.0625).overflowing_mul_into::<_, FixedI16<4>>(FixedI32::<16>::from_num(0.5)), (FixedI16::from_bits(-1), false));
    /// // 13.5 does not fit
    /// assert_eq!(number(1.5).overflowing_mul_into::<_, Number>(9), (number(-2.5), true));
    /// ```
    ///
    /// # Compile errors
    ///
    /// Compiles only if the fraction is at most the width, and the fraction of `rhs` is at most its width.
    ///
    /// # Proved
    ///
    /// ```text
    /// requires fraction { Self.FRACTION ≤ Self.Word.BITS }
    /// requires rhs_fraction { B.FRACTION ≤ B.Word.BITS }
    /// ensures { Some (D.units result.0, result.1) ≡ overflowing D.Word.SIGNED D.Word.BITS
    ///     (Some (rounded_mul_into (Self.units self) Self.FRACTION (B.units rhs) B.FRACTION D.FRACTION Down)) }
    /// ```
    ///
    /// Definitions: [`overflowing`], [`rounded_mul_into`].
    ///
    /// [`overflowing`]: crate::definitions::word_policies
    /// [`rounded_mul_into`]: crate::definitions::convert_convert
    #[must_use]
    fn overflowing_mul_into<B: Numeric, D: Numeric>(self, rhs: B) -> (D, bool);

    /// Returns the product, rounded down and wrapped.
    ///
    /// # Examples
    ///
    /// ```
    /// use zugyelmas::prelude::*;
    /// type Number = FixedI8<4>; // from -8 to 7.9375
    /// let number = Number::from_num::<f64>;
    ///
    /// assert_eq!(number(1.5).wrapping_mul_into::<_, FixedI16<8>>(FixedI32::<16>::from_num(2.25)), FixedI16::from_num(3.375));
    /// // -0.03125, rounded down
    /// assert_eq!(number(-0.0625).wrapping_mul_into::<_, FixedI16<4>>(FixedI32::<16>::from_num(0.5)), FixedI16::from_bits(-1));
    /// // 13.5 does not fit
    /// assert_eq!(number(1.5).wrapping_mul_into::<_, Number>(9), number(-2.5));
    /// ```
    ///
    /// # Compile errors
    ///
    /// Compiles only if the fraction is at most the width, and the fraction of `rhs` is at most its width.
    ///
    /// # Proved
    ///
    /// ```text
    /// requires fraction { Self.FRACTION ≤ Self.Word.BITS }
    /// requires rhs_fraction { B.FRACTION ≤ B.Word.BITS }
    /// ensures { Some (D.units result) ≡ wrapping D.Word.SIGNED D.Word.BITS
    ///     (Some (rounded_mul_into (Self.units self) Self.FRACTION (B.units rhs) B.FRACTION D.FRACTION Down)) }
    /// ```
    ///
    /// Definitions: [`wrapping`], [`rounded_mul_into`].
    ///
    /// [`wrapping`]: crate::definitions::word_policies
    /// [`rounded_mul_into`]: crate::definitions::convert_convert
    #[must_use]
    fn wrapping_mul_into<B: Numeric, D: Numeric>(self, rhs: B) -> D;

    /// Returns the nearest number that fits to the product, rounded down.
    ///
    /// # Examples
    ///
    /// ```
    /// use zugyelmas::prelude::*;
    /// type Number = FixedI8<4>; // from -8 to 7.9375
    /// let number = Number::from_num::<f64>;
    ///
    /// assert_eq!(number(1.5).saturating_mul_into::<_, FixedI16<8>>(FixedI32::<16>::from_num(2.25)), FixedI16::from_num(3.375));
    /// // -0.03125, rounded down
    /// assert_eq!(number(-0.0625).saturating_mul_into::<_, FixedI16<4>>(FixedI32::<16>::from_num(0.5)), FixedI16::from_bits(-1));
    /// // 13.5 does not fit
    /// assert_eq!(number(1.5).saturating_mul_into::<_, Number>(9), Number::MAX);
    /// ```
    ///
    /// # Compile errors
    ///
    /// Compiles only if the fraction is at most the width, and the fraction of `rhs` is at most its width.
    ///
    /// # Proved
    ///
    /// ```text
    /// requires fraction { Self.FRACTION ≤ Self.Word.BITS }
    /// requires rhs_fraction { B.FRACTION ≤ B.Word.BITS }
    /// ensures { Some (D.units result) ≡ saturating D.Word.SIGNED D.Word.BITS
    ///     (Some (rounded_mul_into (Self.units self) Self.FRACTION (B.units rhs) B.FRACTION D.FRACTION Down)) }
    /// ```
    ///
    /// Definitions: [`saturating`], [`rounded_mul_into`].
    ///
    /// [`saturating`]: crate::definitions::word_policies
    /// [`rounded_mul_into`]: crate::definitions::convert_convert
    #[must_use]
    fn saturating_mul_into<B: Numeric, D: Numeric>(self, rhs: B) -> D;

    /// Returns the product, rounded down. Precondition: it fits.
    ///
    /// # Examples
    ///
    /// ```
    /// use zugyelmas::prelude::*;
    /// type Number = FixedI8<4>; // from -8 to 7.9375
    /// let number = Number::from_num::<f64>;
    ///
    /// assert_eq!(number(1.5).strict_mul_into::<_, FixedI16<8>>(FixedI32::<16>::from_num(2.25)), FixedI16::from_num(3.375));
    /// // -0.03125, rounded down
    /// assert_eq!(number(-0.0625).strict_mul_into::<_, FixedI16<4>>(FixedI32::<16>::from_num(0.5)), FixedI16::from_bits(-1));
    /// ```
    ///
    /// ```should_panic
    /// # use zugyelmas::prelude::*;
    /// # type Number = FixedI8<4>; // from -8 to 7.9375
    /// # let number = Number::from_num::<f64>;
    /// # std::panic::set_hook(Box::new(|_| {}));
    /// number(1.5).strict_mul_into::<_, Number>(9); // 13.5 does not fit
    /// ```
    ///
    /// # Compile errors
    ///
    /// Compiles only if the fraction is at most the width, and the fraction of `rhs` is at most its width.
    ///
    /// # Panics
    ///
    /// Panics unless there is a number and it fits.
    ///
    /// # Proved
    ///
    /// ```text
    /// requires fraction { Self.FRACTION ≤ Self.Word.BITS }
    /// requires rhs_fraction { B.FRACTION ≤ B.Word.BITS }
    /// requires fits { IsSome (checked D.Word.SIGNED D.Word.BITS
    ///     (Some (rounded_mul_into (Self.units self) Self.FRACTION (B.units rhs) B.FRACTION D.FRACTION Down))) }
    /// ensures { Some (D.units result)
    ///     ≡ Some (rounded_mul_into (Self.units self) Self.FRACTION (B.units rhs) B.FRACTION D.FRACTION Down) }
    /// ```
    ///
    /// Definitions: [`checked`], [`rounded_mul_into`].
    ///
    /// [`checked`]: crate::definitions::word_policies
    /// [`rounded_mul_into`]: crate::definitions::convert_convert
    #[must_use]
    fn strict_mul_into<B: Numeric, D: Numeric>(self, rhs: B) -> D;

    /// Returns the product, rounded down. Precondition: it fits.
    ///
    /// # Examples
    ///
    /// ```
    /// use zugyelmas::prelude::*;
    /// type Number = FixedI8<4>; // from -8 to 7.9375
    /// let number = Number::from_num::<f64>;
    ///
    /// assert_eq!(number(1.5).unwrapped_mul_into::<_, FixedI16<8>>(FixedI32::<16>::from_num(2.25)), FixedI16::from_num(3.375));
    /// // -0.03125, rounded down
    /// assert_eq!(number(-0.0625).unwrapped_mul_into::<_, FixedI16<4>>(FixedI32::<16>::from_num(0.5)), FixedI16::from_bits(-1));
    /// ```
    ///
    /// ```should_panic
    /// # use zugyelmas::prelude::*;
    /// # type Number = FixedI8<4>; // from -8 to 7.9375
    /// # let number = Number::from_num::<f64>;
    /// # std::panic::set_hook(Box::new(|_| {}));
    /// number(1.5).unwrapped_mul_into::<_, Number>(9); // 13.5 does not fit
    /// ```
    ///
    /// # Compile errors
    ///
    /// Compiles only if the fraction is at most the width, and the fraction of `rhs` is at most its width.
    ///
    /// # Panics
    ///
    /// Panics unless there is a number and it fits.
    ///
    /// # Proved
    ///
    /// ```text
    /// requires fraction { Self.FRACTION ≤ Self.Word.BITS }
    /// requires rhs_fraction { B.FRACTION ≤ B.Word.BITS }
    /// requires fits { IsSome (checked D.Word.SIGNED D.Word.BITS
    ///     (Some (rounded_mul_into (Self.units self) Self.FRACTION (B.units rhs) B.FRACTION D.FRACTION Down))) }
    /// ensures { Some (D.units result)
    ///     ≡ Some (rounded_mul_into (Self.units self) Self.FRACTION (B.units rhs) B.FRACTION D.FRACTION Down) }
    /// ```
    ///
    /// Definitions: [`checked`], [`rounded_mul_into`].
    ///
    /// [`checked`]: crate::definitions::word_policies
    /// [`rounded_mul_into`]: crate::definitions::convert_convert
    #[must_use]
    fn unwrapped_mul_into<B: Numeric, D: Numeric>(self, rhs: B) -> D;

    /// Returns the product, rounded as named. Precondition: it fits.
    ///
    /// # Examples
    ///
    /// ```
    /// use zugyelmas::prelude::*;
    /// use zugyelmas::word::Rounding;
    /// type Number = FixedI8<4>; // from -8 to 7.9375
    /// let number = Number::from_num::<f64>;
    ///
    /// // 1.5 units: a tie, to 2 units
    /// assert_eq!(number(0.1875).mul_into_round::<_, FixedI16<4>>(FixedI32::<16>::from_num(0.5), Rounding::Even), FixedI16::from_bits(2));
    /// // -0.5 units
    /// assert_eq!(number(-0.0625).mul_into_round::<_, FixedI16<4>>(FixedI32::<16>::from_num(0.5), Rounding::Zero), FixedI16::from_bits(0));
    /// ```
    ///
    /// # Compile errors
    ///
    /// Compiles only if the fraction is at most the width, and the fraction of `rhs` is at most its width.
    ///
    /// # Panics
    ///
    /// With debug assertions, panics unless there is a number and it fits. Without them, the result is wrapped.
    ///
    /// # Proved
    ///
    /// ```text
    /// requires fraction { Self.FRACTION ≤ Self.Word.BITS }
    /// requires rhs_fraction { B.FRACTION ≤ B.Word.BITS }
    /// requires fits { IsSome (checked D.Word.SIGNED D.Word.BITS
    ///     (Some (rounded_mul_into (Self.units self) Self.FRACTION (B.units rhs) B.FRACTION D.FRACTION rounding))) }
    /// ensures { Some (D.units result)
    ///     ≡ Some (rounded_mul_into (Self.units self) Self.FRACTION (B.units rhs) B.FRACTION D.FRACTION rounding) }
    /// ```
    ///
    /// Definitions: [`checked`], [`rounded_mul_into`].
    ///
    /// [`checked`]: crate::definitions::word_policies
    /// [`rounded_mul_into`]: crate::definitions::convert_convert
    #[must_use]
    fn mul_into_round<B: Numeric, D: Numeric>(self, rhs: B, rounding: Rounding) -> D;

    /// Returns the product, rounded as named, or `None` if it does not fit.
    ///
    /// # Examples
    ///
    /// ```
    /// use zugyelmas::prelude::*;
    /// use zugyelmas::word::Rounding;
    /// type Number = FixedI8<4>; // from -8 to 7.9375
    /// let number = Number::from_num::<f64>;
    ///
    /// // 1.5 units: a tie, to 2 units
    /// assert_eq!(number(0.1875).checked_mul_into_round::<_, FixedI16<4>>(FixedI32::<16>::from_num(0.5), Rounding::Even), Some(FixedI16::from_bits(2)));
    /// // -0.5 units
    /// assert_eq!(number(-0.0625).checked_mul_into_round::<_, FixedI16<4>>(FixedI32::<16>::from_num(0.5), Rounding::Zero), Some(FixedI16::from_bits(0)));
    /// // 13.5 does not fit
    /// assert_eq!(number(1.5).checked_mul_into_round::<_, Number>(9, Rounding::Even), None);
    /// ```
    ///
    /// # Compile errors
    ///
    /// Compiles only if the fraction is at most the width, and the fraction of `rhs` is at most its width.
    ///
    /// # Proved
    ///
    /// ```text
    /// requires fraction { Self.FRACTION ≤ Self.Word.BITS }
    /// requires rhs_fraction { B.FRACTION ≤ B.Word.BITS }
    /// ensures { option_map D.units result ≡ checked D.Word.SIGNED D.Word.BITS
    ///     (Some (rounded_mul_into (Self.units self) Self.FRACTION (B.units rhs) B.FRACTION D.FRACTION rounding)) }
    /// ```
    ///
    /// Definitions: [`checked`], [`rounded_mul_into`].
    ///
    /// [`checked`]: crate::definitions::word_policies
    /// [`rounded_mul_into`]: crate::definitions::convert_convert
    #[must_use]
    fn checked_mul_into_round<B: Numeric, D: Numeric>(
        self,
        rhs: B,
        rounding: Rounding,
    ) -> Option<D>;

    /// Returns the product, rounded as named and wrapped, and whether it does not fit.
    ///
    /// # Examples
    ///
    /// ```
    /// use zugyelmas::prelude::*;
    /// use zugyelmas::word::Rounding;
    /// type Number = FixedI8<4>; // from -8 to 7.9375
    /// let number = Number::from_num::<f64>;
    ///
    /// // 1.5 units: a tie, to 2 units
    /// assert_eq!(number(0.1875).overflowing_mul_into_round::<_, FixedI16<4>>(FixedI32::<16>::from_num(0.5), Rounding::Even), (FixedI16::from_bits(2), false));
    /// // -0.5 units
    /// assert_eq!(number(-0.0625).overflowing_mul_into_round::<_, FixedI16<4>>(FixedI32::<16>::from_num(0.5), Rounding::Zero), (FixedI16::from_bits(0), false));
    /// // 13.5 does not fit
    /// assert_eq!(number(1.5).overflowing_mul_into_round::<_, Number>(9, Rounding::Even), (number(-2.5), true));
    /// ```
    ///
    /// # Compile errors
    ///
    /// Compiles only if the fraction is at most the width, and the fraction of `rhs` is at most its width.
    ///
    /// # Proved
    ///
    /// ```text
    /// requires fraction { Self.FRACTION ≤ Self.Word.BITS }
    /// requires rhs_fraction { B.FRACTION ≤ B.Word.BITS }
    /// ensures { Some (D.units result.0, result.1) ≡ overflowing D.Word.SIGNED D.Word.BITS
    ///     (Some (rounded_mul_into (Self.units self) Self.FRACTION (B.units rhs) B.FRACTION D.FRACTION rounding)) }
    /// ```
    ///
    /// Definitions: [`overflowing`], [`rounded_mul_into`].
    ///
    /// [`overflowing`]: crate::definitions::word_policies
    /// [`rounded_mul_into`]: crate::definitions::convert_convert
    #[must_use]
    fn overflowing_mul_into_round<B: Numeric, D: Numeric>(
        self,
        rhs: B,
        rounding: Rounding,
    ) -> (D, bool);

    /// Returns the product, rounded as named and wrapped.
    ///
    /// # Examples
    ///
    /// ```
    /// use zugyelmas::prelude::*;
    /// use zugyelmas::word::Rounding;
    /// type Number = FixedI8<4>; // from -8 to 7.9375
    /// let number = Number::from_num::<f64>;
    ///
    /// // 1.5 units: a tie, to 2 units
    /// assert_eq!(number(0.1875).wrapping_mul_into_round::<_, FixedI16<4>>(FixedI32::<16>::from_num(0.5), Rounding::Even), FixedI16::from_bits(2));
    /// // -0.5 units
    /// assert_eq!(number(-0.0625).wrapping_mul_into_round::<_, FixedI16<4>>(FixedI32::<16>::from_num(0.5), Rounding::Zero), FixedI16::from_bits(0));
    /// // 13.5 does not fit
    /// assert_eq!(number(1.5).wrapping_mul_into_round::<_, Number>(9, Rounding::Even), number(-2.5));
    /// ```
    ///
    /// # Compile errors
    ///
    /// Compiles only if the fraction is at most the width, and the fraction of `rhs` is at most its width.
    ///
    /// # Proved
    ///
    /// ```text
    /// requires fraction { Self.FRACTION ≤ Self.Word.BITS }
    /// requires rhs_fraction { B.FRACTION ≤ B.Word.BITS }
    /// ensures { Some (D.units result) ≡ wrapping D.Word.SIGNED D.Word.BITS
    ///     (Some (rounded_mul_into (Self.units self) Self.FRACTION (B.units rhs) B.FRACTION D.FRACTION rounding)) }
    /// ```
    ///
    /// Definitions: [`wrapping`], [`rounded_mul_into`].
    ///
    /// [`wrapping`]: crate::definitions::word_policies
    /// [`rounded_mul_into`]: crate::definitions::convert_convert
    #[must_use]
    fn wrapping_mul_into_round<B: Numeric, D: Numeric>(self, rhs: B, rounding: Rounding) -> D;

    /// Returns the nearest number that fits to the product, rounded as named.
    ///
    /// # Examples
    ///
    /// ```
    /// use zugyelmas::prelude::*;
    /// use zugyelmas::word::Rounding;
    /// type Number = FixedI8<4>; // from -8 to 7.9375
    /// let number = Number::from_num::<f64>;
    ///
    /// // 1.5 units: a tie, to 2 units
    /// assert_eq!(number(0.1875).saturating_mul_into_round::<_, FixedI16<4>>(FixedI32::<16>::from_num(0.5), Rounding::Even), FixedI16::from_bits(2));
    /// // -0.5 units
    /// assert_eq!(number(-0.0625).saturating_mul_into_round::<_, FixedI16<4>>(FixedI32::<16>::from_num(0.5), Rounding::Zero), FixedI16::from_bits(0));
    /// // 13.5 does not fit
    /// assert_eq!(number(1.5).saturating_mul_into_round::<_, Number>(9, Rounding::Even), Number::MAX);
    /// ```
    ///
    /// # Compile errors
    ///
    /// Compiles only if the fraction is at most the width, and the fraction of `rhs` is at most its width.
    ///
    /// # Proved
    ///
    /// ```text
    /// requires fraction { Self.FRACTION ≤ Self.Word.BITS }
    /// requires rhs_fraction { B.FRACTION ≤ B.Word.BITS }
    /// ensures { Some (D.units result) ≡ saturating D.Word.SIGNED D.Word.BITS
    ///     (Some (rounded_mul_into (Self.units self) Self.FRACTION (B.units rhs) B.FRACTION D.FRACTION rounding)) }
    /// ```
    ///
    /// Definitions: [`saturating`], [`rounded_mul_into`].
    ///
    /// [`saturating`]: crate::definitions::word_policies
    /// [`rounded_mul_into`]: crate::definitions::convert_convert
    #[must_use]
    fn saturating_mul_into_round<B: Numeric, D: Numeric>(self, rhs: B, rounding: Rounding) -> D;

    /// Returns the product, rounded as named. Precondition: it fits.
    ///
    /// # Examples
    ///
    /// ```
    /// use zugyelmas::prelude::*;
    /// use zugyelmas::word::Rounding;
    /// type Number = FixedI8<4>; // from -8 to 7.9375
    /// let number = Number::from_num::<f64>;
    ///
    /// // 1.5 units: a tie, to 2 units
    /// assert_eq!(number(0.1875).strict_mul_into_round::<_, FixedI16<4>>(FixedI32::<16>::from_num(0.5), Rounding::Even), FixedI16::from_bits(2));
    /// // -0.5 units
    /// assert_eq!(number(-0.0625).strict_mul_into_round::<_, FixedI16<4>>(FixedI32::<16>::from_num(0.5), Rounding::Zero), FixedI16::from_bits(0));
    /// ```
    ///
    /// ```should_panic
    /// # use zugyelmas::prelude::*;
    /// # use zugyelmas::word::Rounding;
    /// # type Number = FixedI8<4>; // from -8 to 7.9375
    /// # let number = Number::from_num::<f64>;
    /// # std::panic::set_hook(Box::new(|_| {}));
    /// // 13.5 does not fit
    /// number(1.5).strict_mul_into_round::<_, Number>(9, Rounding::Even);
    /// ```
    ///
    /// # Compile errors
    ///
    /// Compiles only if the fraction is at most the width, and the fraction of `rhs` is at most its width.
    ///
    /// # Panics
    ///
    /// Panics unless there is a number and it fits.
    ///
    /// # Proved
    ///
    /// ```text
    /// requires fraction { Self.FRACTION ≤ Self.Word.BITS }
    /// requires rhs_fraction { B.FRACTION ≤ B.Word.BITS }
    /// requires fits { IsSome (checked D.Word.SIGNED D.Word.BITS
    ///     (Some (rounded_mul_into (Self.units self) Self.FRACTION (B.units rhs) B.FRACTION D.FRACTION rounding))) }
    /// ensures { Some (D.units result)
    ///     ≡ Some (rounded_mul_into (Self.units self) Self.FRACTION (B.units rhs) B.FRACTION D.FRACTION rounding) }
    /// ```
    ///
    /// Definitions: [`checked`], [`rounded_mul_into`].
    ///
    /// [`checked`]: crate::definitions::word_policies
    /// [`rounded_mul_into`]: crate::definitions::convert_convert
    #[must_use]
    fn strict_mul_into_round<B: Numeric, D: Numeric>(self, rhs: B, rounding: Rounding) -> D;

    /// Returns the product, rounded as named. Precondition: it fits.
    ///
    /// # Examples
    ///
    /// ```
    /// use zugyelmas::prelude::*;
    /// use zugyelmas::word::Rounding;
    /// type Number = FixedI8<4>; // from -8 to 7.9375
    /// let number = Number::from_num::<f64>;
    ///
    /// // 1.5 units: a tie, to 2 units
    /// assert_eq!(number(0.1875).unwrapped_mul_into_round::<_, FixedI16<4>>(FixedI32::<16>::from_num(0.5), Rounding::Even), FixedI16::from_bits(2));
    /// // -0.5 units
    /// assert_eq!(number(-0.0625).unwrapped_mul_into_round::<_, FixedI16<4>>(FixedI32::<16>::from_num(0.5), Rounding::Zero), FixedI16::from_bits(0));
    /// ```
    ///
    /// ```should_panic
    /// # use zugyelmas::prelude::*;
    /// # use zugyelmas::word::Rounding;
    /// # type Number = FixedI8<4>; // from -8 to 7.9375
    /// # let number = Number::from_num::<f64>;
    /// # std::panic::set_hook(Box::new(|_| {}));
    /// // 13.5 does not fit
    /// number(1.5).unwrapped_mul_into_round::<_, Number>(9, Rounding::Even);
    /// ```
    ///
    /// # Compile errors
    ///
    /// Compiles only if the fraction is at most the width, and the fraction of `rhs` is at most its width.
    ///
    /// # Panics
    ///
    /// Panics unless there is a number and it fits.
    ///
    /// # Proved
    ///
    /// ```text
    /// requires fraction { Self.FRACTION ≤ Self.Word.BITS }
    /// requires rhs_fraction { B.FRACTION ≤ B.Word.BITS }
    /// requires fits { IsSome (checked D.Word.SIGNED D.Word.BITS
    ///     (Some (rounded_mul_into (Self.units self) Self.FRACTION (B.units rhs) B.FRACTION D.FRACTION rounding))) }
    /// ensures { Some (D.units result)
    ///     ≡ Some (rounded_mul_into (Self.units self) Self.FRACTION (B.units rhs) B.FRACTION D.FRACTION rounding) }
    /// ```
    ///
    /// Definitions: [`checked`], [`rounded_mul_into`].
    ///
    /// [`checked`]: crate::definitions::word_policies
    /// [`rounded_mul_into`]: crate::definitions::convert_convert
    #[must_use]
    fn unwrapped_mul_into_round<B: Numeric, D: Numeric>(self, rhs: B, rounding: Rounding) -> D;
}

impl<A: Numeric> MulInto for A {
    #[inline]
    #[track_caller]
    fn mul_into<B: Numeric, D: Numeric>(self, rhs: B) -> D {
        const {
            assert!(
                Self::FRACTION <= <Self::Word as crate::word::Valued>::BITS,
                "precondition: the fraction is at most the width"
            )
        };
        const {
            assert!(
                B::FRACTION <= <B::Word as crate::word::Valued>::BITS,
                "precondition: the fraction of `rhs` is at most its width"
            )
        };
        self.mul_into_round(rhs, Rounding::Down)
    }

    #[inline]
    #[track_caller]
    fn checked_mul_into<B: Numeric, D: Numeric>(self, rhs: B) -> Option<D> {
        const {
            assert!(
                Self::FRACTION <= <Self::Word as crate::word::Valued>::BITS,
                "precondition: the fraction is at most the width"
            )
        };
        const {
            assert!(
                B::FRACTION <= <B::Word as crate::word::Valued>::BITS,
                "precondition: the fraction of `rhs` is at most its width"
            )
        };
        self.checked_mul_into_round(rhs, Rounding::Down)
    }

    #[inline]
    #[track_caller]
    fn overflowing_mul_into<B: Numeric, D: Numeric>(self, rhs: B) -> (D, bool) {
        const {
            assert!(
                Self::FRACTION <= <Self::Word as crate::word::Valued>::BITS,
                "precondition: the fraction is at most the width"
            )
        };
        const {
            assert!(
                B::FRACTION <= <B::Word as crate::word::Valued>::BITS,
                "precondition: the fraction of `rhs` is at most its width"
            )
        };
        self.overflowing_mul_into_round(rhs, Rounding::Down)
    }

    #[inline]
    #[track_caller]
    fn wrapping_mul_into<B: Numeric, D: Numeric>(self, rhs: B) -> D {
        const {
            assert!(
                Self::FRACTION <= <Self::Word as crate::word::Valued>::BITS,
                "precondition: the fraction is at most the width"
            )
        };
        const {
            assert!(
                B::FRACTION <= <B::Word as crate::word::Valued>::BITS,
                "precondition: the fraction of `rhs` is at most its width"
            )
        };
        self.wrapping_mul_into_round(rhs, Rounding::Down)
    }

    #[inline]
    #[track_caller]
    fn saturating_mul_into<B: Numeric, D: Numeric>(self, rhs: B) -> D {
        const {
            assert!(
                Self::FRACTION <= <Self::Word as crate::word::Valued>::BITS,
                "precondition: the fraction is at most the width"
            )
        };
        const {
            assert!(
                B::FRACTION <= <B::Word as crate::word::Valued>::BITS,
                "precondition: the fraction of `rhs` is at most its width"
            )
        };
        self.saturating_mul_into_round(rhs, Rounding::Down)
    }

    #[inline]
    #[track_caller]
    fn strict_mul_into<B: Numeric, D: Numeric>(self, rhs: B) -> D {
        const {
            assert!(
                Self::FRACTION <= <Self::Word as crate::word::Valued>::BITS,
                "precondition: the fraction is at most the width"
            )
        };
        const {
            assert!(
                B::FRACTION <= <B::Word as crate::word::Valued>::BITS,
                "precondition: the fraction of `rhs` is at most its width"
            )
        };
        self.strict_mul_into_round(rhs, Rounding::Down)
    }

    #[inline]
    #[track_caller]
    fn unwrapped_mul_into<B: Numeric, D: Numeric>(self, rhs: B) -> D {
        const {
            assert!(
                Self::FRACTION <= <Self::Word as crate::word::Valued>::BITS,
                "precondition: the fraction is at most the width"
            )
        };
        const {
            assert!(
                B::FRACTION <= <B::Word as crate::word::Valued>::BITS,
                "precondition: the fraction of `rhs` is at most its width"
            )
        };
        self.strict_mul_into(rhs)
    }

    #[inline]
    #[track_caller]
    fn mul_into_round<B: Numeric, D: Numeric>(self, rhs: B, rounding: Rounding) -> D {
        const {
            assert!(
                Self::FRACTION <= <Self::Word as crate::word::Valued>::BITS,
                "precondition: the fraction is at most the width"
            )
        };
        const {
            assert!(
                B::FRACTION <= <B::Word as crate::word::Valued>::BITS,
                "precondition: the fraction of `rhs` is at most its width"
            )
        };
        exact_num(product::<A, B, D>(self, rhs, rounding))
    }

    #[inline]
    #[track_caller]
    fn checked_mul_into_round<B: Numeric, D: Numeric>(
        self,
        rhs: B,
        rounding: Rounding,
    ) -> Option<D> {
        const {
            assert!(
                Self::FRACTION <= <Self::Word as crate::word::Valued>::BITS,
                "precondition: the fraction is at most the width"
            )
        };
        const {
            assert!(
                B::FRACTION <= <B::Word as crate::word::Valued>::BITS,
                "precondition: the fraction of `rhs` is at most its width"
            )
        };
        checked_num(product::<A, B, D>(self, rhs, rounding))
    }

    #[inline]
    #[track_caller]
    fn overflowing_mul_into_round<B: Numeric, D: Numeric>(
        self,
        rhs: B,
        rounding: Rounding,
    ) -> (D, bool) {
        const {
            assert!(
                Self::FRACTION <= <Self::Word as crate::word::Valued>::BITS,
                "precondition: the fraction is at most the width"
            )
        };
        const {
            assert!(
                B::FRACTION <= <B::Word as crate::word::Valued>::BITS,
                "precondition: the fraction of `rhs` is at most its width"
            )
        };
        overflowing_num(product::<A, B, D>(self, rhs, rounding))
    }

    #[inline]
    #[track_caller]
    fn wrapping_mul_into_round<B: Numeric, D: Numeric>(self, rhs: B, rounding: Rounding) -> D {
        const {
            assert!(
                Self::FRACTION <= <Self::Word as crate::word::Valued>::BITS,
                "precondition: the fraction is at most the width"
            )
        };
        const {
            assert!(
                B::FRACTION <= <B::Word as crate::word::Valued>::BITS,
                "precondition: the fraction of `rhs` is at most its width"
            )
        };
        wrapping_num(product::<A, B, D>(self, rhs, rounding))
    }

    #[inline]
    #[track_caller]
    fn saturating_mul_into_round<B: Numeric, D: Numeric>(self, rhs: B, rounding: Rounding) -> D {
        const {
            assert!(
                Self::FRACTION <= <Self::Word as crate::word::Valued>::BITS,
                "precondition: the fraction is at most the width"
            )
        };
        const {
            assert!(
                B::FRACTION <= <B::Word as crate::word::Valued>::BITS,
                "precondition: the fraction of `rhs` is at most its width"
            )
        };
        saturating_num(product::<A, B, D>(self, rhs, rounding))
    }

    #[inline]
    #[track_caller]
    fn strict_mul_into_round<B: Numeric, D: Numeric>(self, rhs: B, rounding: Rounding) -> D {
        const {
            assert!(
                Self::FRACTION <= <Self::Word as crate::word::Valued>::BITS,
                "precondition: the fraction is at most the width"
            )
        };
        const {
            assert!(
                B::FRACTION <= <B::Word as crate::word::Valued>::BITS,
                "precondition: the fraction of `rhs` is at most its width"
            )
        };
        strict_num(product::<A, B, D>(self, rhs, rounding))
    }

    #[inline]
    #[track_caller]
    fn unwrapped_mul_into_round<B: Numeric, D: Numeric>(self, rhs: B, rounding: Rounding) -> D {
        const {
            assert!(
                Self::FRACTION <= <Self::Word as crate::word::Valued>::BITS,
                "precondition: the fraction is at most the width"
            )
        };
        const {
            assert!(
                B::FRACTION <= <B::Word as crate::word::Valued>::BITS,
                "precondition: the fraction of `rhs` is at most its width"
            )
        };
        self.strict_mul_into_round(rhs, rounding)
    }
}

/// Returns the outcome of the product in the format of `D`.
#[inline]
fn product<A: Numeric, B: Numeric, D: Numeric>(a: A, b: B, rounding: Rounding) -> Outcome<D::Word> {
    mul_into_of(
        a.to_word(),
        A::FRACTION,
        b.to_word(),
        B::FRACTION,
        D::FRACTION,
        rounding,
    )
}
