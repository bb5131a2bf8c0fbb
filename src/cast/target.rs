// Made by `make package` of crates/fixed_cast/src/target.rt, which is proved: changes go there.

//! What conversions return.

use crate::cast::floats::ToFloat;
use crate::cast::from_num::FromNum;
use crate::cast::numeric::Numeric;
use crate::cast::source::Source;

/// A type that the calls of [`ToNum`](crate::cast::ToNum) return. Each source converts to numbers of every format and to
/// integers; numbers and integers also convert to floats. A float is the nearest one, ties to even, and always fits.
/// (`fixed` does not have this trait.)
pub trait Target<S: Source>: Copy {
    /// Returns the value. Precondition: there is one, and it fits.
    ///
    /// # Examples
    ///
    /// ```
    /// use zugyelmas::Target;
    /// use zugyelmas::prelude::*;
    /// let number = FixedI8::<4>::from_num(-1.5);
    ///
    /// assert_eq!(f64::from_source(number), -1.5);
    /// assert_eq!(i32::from_source(number), -2); // rounded down
    /// ```
    ///
    /// ```should_panic
    /// # use zugyelmas::Target;
    /// # use zugyelmas::prelude::*;
    /// # let number = FixedI8::<4>::from_num(-1.5);
    /// # std::panic::set_hook(Box::new(|_| {}));
    /// FixedI8::<7>::from_source(number); // -1.5 does not fit
    /// ```
    ///
    /// # Compile errors
    ///
    /// Compiles only if the fraction is at most the width, if the result is a float.
    ///
    /// # Panics
    ///
    /// With debug assertions, panics unless there is a number and it fits. Without them, the result is wrapped.
    ///
    /// # Proved
    ///
    /// ```text
    /// requires format { is_format }
    /// requires fits { IsSome (as_checked (exact source)) }
    /// ensures { Some (exactly result) ≡ exact source }
    /// ```
    #[must_use]
    fn from_source(source: S) -> Self;

    /// Returns the value, or `None` if there is none or it does not fit.
    ///
    /// # Examples
    ///
    /// ```
    /// use zugyelmas::Target;
    /// use zugyelmas::prelude::*;
    /// let number = FixedI8::<4>::from_num(-1.5);
    ///
    /// assert_eq!(f32::checked_from_source(number), Some(-1.5));
    /// assert_eq!(u8::checked_from_source(number), None); // -2 does not fit
    /// ```
    ///
    /// # Compile errors
    ///
    /// Compiles only if the fraction is at most the width, if the result is a float.
    ///
    /// # Proved
    ///
    /// ```text
    /// requires { is_format }
    /// ensures { option_map exactly result ≡ as_checked (exact source) }
    /// ```
    #[must_use]
    fn checked_from_source(source: S) -> Option<Self>;

    /// Returns the wrapped value, and whether the value does not fit. Precondition: there is one.
    ///
    /// # Examples
    ///
    /// ```
    /// use zugyelmas::Target;
    /// use zugyelmas::prelude::*;
    /// let number = FixedI8::<4>::from_num(-1.5);
    ///
    /// assert_eq!(f32::overflowing_from_source(number), (-1.5, false));
    /// assert_eq!(u8::overflowing_from_source(number), (254, true)); // of -2
    /// ```
    ///
    /// # Compile errors
    ///
    /// Compiles only if the fraction is at most the width, if the result is a float.
    ///
    /// # Panics
    ///
    /// Panics unless there is a number.
    ///
    /// # Proved
    ///
    /// ```text
    /// requires format { is_format }
    /// requires some { IsSome (exact source) }
    /// ensures { Some (exactly result.0, result.1) ≡ as_overflowing (exact source) }
    /// ```
    #[must_use]
    fn overflowing_from_source(source: S) -> (Self, bool);

    /// Returns the wrapped value. Precondition: there is one.
    ///
    /// # Examples
    ///
    /// ```
    /// use zugyelmas::Target;
    /// use zugyelmas::prelude::*;
    /// let number = FixedI8::<4>::from_num(-1.5);
    ///
    /// assert_eq!(f64::wrapping_from_source(number), -1.5);
    /// assert_eq!(u8::wrapping_from_source(number), 254); // of -2
    /// ```
    ///
    /// # Compile errors
    ///
    /// Compiles only if the fraction is at most the width, if the result is a float.
    ///
    /// # Panics
    ///
    /// Panics unless there is a number.
    ///
    /// # Proved
    ///
    /// ```text
    /// requires format { is_format }
    /// requires some { IsSome (exact source) }
    /// ensures { Some (exactly result) ≡ as_wrapping (exact source) }
    /// ```
    #[must_use]
    fn wrapping_from_source(source: S) -> Self;

    /// Returns the nearest value that fits. Precondition: there is a value.
    ///
    /// # Examples
    ///
    /// ```
    /// use zugyelmas::Target;
    /// use zugyelmas::prelude::*;
    /// let number = FixedI8::<4>::from_num(-1.5);
    ///
    /// assert_eq!(f64::saturating_from_source(number), -1.5);
    /// assert_eq!(u8::saturating_from_source(number), 0); // of -2
    /// ```
    ///
    /// # Compile errors
    ///
    /// Compiles only if the fraction is at most the width, if the result is a float.
    ///
    /// # Panics
    ///
    /// Panics unless there is a number.
    ///
    /// # Proved
    ///
    /// ```text
    /// requires format { is_format }
    /// requires some { IsSome (saturated source) }
    /// ensures { Some (exactly result) ≡ saturated source }
    /// ```
    #[must_use]
    fn saturating_from_source(source: S) -> Self;

    /// Returns the value. Precondition: there is one, and it fits.
    ///
    /// # Examples
    ///
    /// ```
    /// use zugyelmas::Target;
    /// use zugyelmas::prelude::*;
    /// let number = FixedI8::<4>::from_num(-1.5);
    ///
    /// assert_eq!(f64::strict_from_source(number), -1.5);
    /// ```
    ///
    /// ```should_panic
    /// # use zugyelmas::Target;
    /// # use zugyelmas::prelude::*;
    /// # let number = FixedI8::<4>::from_num(-1.5);
    /// # std::panic::set_hook(Box::new(|_| {}));
    /// u8::strict_from_source(number); // -2 does not fit
    /// ```
    ///
    /// # Compile errors
    ///
    /// Compiles only if the fraction is at most the width, if the result is a float.
    ///
    /// # Panics
    ///
    /// Panics unless there is a number and it fits.
    ///
    /// # Proved
    ///
    /// ```text
    /// requires format { is_format }
    /// requires fits { IsSome (as_checked (exact source)) }
    /// ensures { Some (exactly result) ≡ exact source }
    /// ```
    #[must_use]
    fn strict_from_source(source: S) -> Self;
}

impl<S: Source, N: Numeric> Target<S> for N {
    #[inline]
    #[track_caller]
    fn from_source(source: S) -> N {
        N::from_num(source)
    }

    #[inline]
    #[track_caller]
    fn checked_from_source(source: S) -> Option<N> {
        N::checked_from_num(source)
    }

    #[inline]
    #[track_caller]
    fn overflowing_from_source(source: S) -> (N, bool) {
        N::overflowing_from_num(source)
    }

    #[inline]
    #[track_caller]
    fn wrapping_from_source(source: S) -> N {
        N::wrapping_from_num(source)
    }

    #[inline]
    #[track_caller]
    fn saturating_from_source(source: S) -> N {
        N::saturating_from_num(source)
    }

    #[inline]
    #[track_caller]
    fn strict_from_source(source: S) -> N {
        N::strict_from_num(source)
    }
}

impl<S: Numeric> Target<S> for f32 {
    #[inline]
    #[track_caller]
    fn from_source(source: S) -> f32 {
        source.to_float()
    }

    #[inline]
    #[track_caller]
    fn checked_from_source(source: S) -> Option<f32> {
        Some(source.to_float())
    }

    #[inline]
    #[track_caller]
    fn overflowing_from_source(source: S) -> (f32, bool) {
        (source.to_float(), false)
    }

    #[inline]
    #[track_caller]
    fn wrapping_from_source(source: S) -> f32 {
        source.to_float()
    }

    #[inline]
    #[track_caller]
    fn saturating_from_source(source: S) -> f32 {
        source.to_float()
    }

    #[inline]
    #[track_caller]
    fn strict_from_source(source: S) -> f32 {
        source.to_float()
    }
}

impl<S: Numeric> Target<S> for f64 {
    #[inline]
    #[track_caller]
    fn from_source(source: S) -> f64 {
        source.to_float()
    }

    #[inline]
    #[track_caller]
    fn checked_from_source(source: S) -> Option<f64> {
        Some(source.to_float())
    }

    #[inline]
    #[track_caller]
    fn overflowing_from_source(source: S) -> (f64, bool) {
        (source.to_float(), false)
    }

    #[inline]
    #[track_caller]
    fn wrapping_from_source(source: S) -> f64 {
        source.to_float()
    }

    #[inline]
    #[track_caller]
    fn saturating_from_source(source: S) -> f64 {
        source.to_float()
    }

    #[inline]
    #[track_caller]
    fn strict_from_source(source: S) -> f64 {
        source.to_float()
    }
}
