// Made by `make package` of crates/fixed_turns/src/strict.rt, which is proved: changes go there.

//! The `strict_` calls of sines, cosines and angles of points. The Rust crate `fixed` does not have them.

use crate::stopping::{Fixed, Held, Number, exact_number};
use crate::turns::directions::atan2_of;
use crate::turns::points::atan2_turns_of;
use crate::turns::radians::{cos_of, sin_cos_of, sin_of};
use crate::turns::sines::{cos_turns_of, sin_cos_turns_of, sin_turns_of};
use crate::word::{RawWord, Word};

/// The `strict_` calls of sines, cosines and angles of points. Preconditions of each call: its results fit, and F is at
/// most the width. Operands and results are in units of `2^-F`; angles are in turns.
pub trait StrictTurns: Number {
    /// Returns the sine of an angle in turns, rounded to the nearest.
    ///
    /// The result differs from the exact sine by at most half a unit plus `2^-k`, where k is 41 on words of up to 32
    /// bits and 61 on words of 64 bits. Sines of whole quarter turns are exact, and none is above 1 or below -1.
    /// Precondition: every result that these statements allow fits.
    ///
    /// # Examples
    ///
    /// ```
    /// use zugyelmas::prelude::*;
    /// use zugyelmas::turns::{atan2_turns_of, cos_turns_of, sin_cos_turns_of, sin_turns_of};
    /// use zugyelmas::word::{Outcome, Side};
    /// type Number = FixedI8<4>; // from -8 to 7.9375
    /// type Small = FixedI8<7>;
    /// let number = Number::from_num::<f64>;
    /// let quarter = Small::from_bits(32);
    /// let left = FixedI8::<8>::from_bits(-1); // on numbers from -1/2 to 127/256
    /// let none = FixedI8::<8>::ZERO;
    ///
    /// assert_eq!(number(0.3125).strict_sin_turns(), number(0.9375));
    /// ```
    ///
    /// ```should_panic
    /// # use zugyelmas::prelude::*;
    /// # use zugyelmas::turns::{atan2_turns_of, cos_turns_of, sin_cos_turns_of, sin_turns_of};
    /// # use zugyelmas::word::{Outcome, Side};
    /// # type Number = FixedI8<4>; // from -8 to 7.9375
    /// # type Small = FixedI8<7>;
    /// # let number = Number::from_num::<f64>;
    /// # let quarter = Small::from_bits(32);
    /// # let left = FixedI8::<8>::from_bits(-1); // on numbers from -1/2 to 127/256
    /// # let none = FixedI8::<8>::ZERO;
    /// # std::panic::set_hook(Box::new(|_| {}));
    /// quarter.strict_sin_turns(); // 1 does not fit
    /// ```
    ///
    /// # Compile errors
    ///
    /// Compiles only if the fraction F is at most the width.
    ///
    /// # Panics
    ///
    /// Panics unless the sine fits.
    ///
    /// # Proved
    ///
    /// ```text
    /// requires fraction { Self.FRACTION ≤ Self.BITS }
    /// requires fits { (r : ℤ) → IsSine (sine_room Self.BITS) (Self.number self) Self.FRACTION r
    ///     → InRange Self.SIGNED Self.BITS r }
    /// ensures { IsSine (sine_room Self.BITS) (Self.number self) Self.FRACTION (Self.number result) }
    /// ```
    ///
    /// Definitions: [`InRange`], [`sine_room`].
    ///
    /// [`InRange`]: crate::definitions::word_format
    /// [`sine_room`]: crate::definitions::turns_sines
    #[must_use]
    fn strict_sin_turns(self) -> Self;

    /// Returns the cosine of an angle in turns, rounded to the nearest.
    ///
    /// The result differs from the exact cosine by at most half a unit plus `2^-k`, where k is 41 on words of up to 32
    /// bits and 61 on words of 64 bits. Cosines of whole quarter turns are exact, and none is above 1 or below -1.
    /// Precondition: every result that these statements allow fits.
    ///
    /// # Examples
    ///
    /// ```
    /// use zugyelmas::prelude::*;
    /// use zugyelmas::turns::{atan2_turns_of, cos_turns_of, sin_cos_turns_of, sin_turns_of};
    /// use zugyelmas::word::{Outcome, Side};
    /// type Number = FixedI8<4>; // from -8 to 7.9375
    /// type Small = FixedI8<7>;
    /// let number = Number::from_num::<f64>;
    /// let quarter = Small::from_bits(32);
    /// let left = FixedI8::<8>::from_bits(-1); // on numbers from -1/2 to 127/256
    /// let none = FixedI8::<8>::ZERO;
    ///
    /// assert_eq!(number(0.3125).strict_cos_turns(), number(-0.375));
    /// ```
    ///
    /// ```should_panic
    /// # use zugyelmas::prelude::*;
    /// # use zugyelmas::turns::{atan2_turns_of, cos_turns_of, sin_cos_turns_of, sin_turns_of};
    /// # use zugyelmas::word::{Outcome, Side};
    /// # type Number = FixedI8<4>; // from -8 to 7.9375
    /// # type Small = FixedI8<7>;
    /// # let number = Number::from_num::<f64>;
    /// # let quarter = Small::from_bits(32);
    /// # let left = FixedI8::<8>::from_bits(-1); // on numbers from -1/2 to 127/256
    /// # let none = FixedI8::<8>::ZERO;
    /// # std::panic::set_hook(Box::new(|_| {}));
    /// Small::ZERO.strict_cos_turns(); // 1 does not fit
    /// ```
    ///
    /// # Compile errors
    ///
    /// Compiles only if the fraction F is at most the width.
    ///
    /// # Panics
    ///
    /// Panics unless the cosine fits.
    ///
    /// # Proved
    ///
    /// ```text
    /// requires fraction { Self.FRACTION ≤ Self.BITS }
    /// requires fits { (r : ℤ) → IsCosine (sine_room Self.BITS) (Self.number self) Self.FRACTION r
    ///     → InRange Self.SIGNED Self.BITS r }
    /// ensures { IsCosine (sine_room Self.BITS) (Self.number self) Self.FRACTION (Self.number result) }
    /// ```
    ///
    /// Definitions: [`InRange`], [`sine_room`].
    ///
    /// [`InRange`]: crate::definitions::word_format
    /// [`sine_room`]: crate::definitions::turns_sines
    #[must_use]
    fn strict_cos_turns(self) -> Self;

    /// Returns the sine and the cosine of an angle in turns, both rounded to the nearest.
    ///
    /// Each result differs from its exact value by at most half a unit plus `2^-k`, where k is 41 on words of up to 32
    /// bits and 61 on words of 64 bits. The results at whole quarter turns are exact, and none is above 1 or below -1.
    /// Precondition: every sine and every cosine that these statements allow fits.
    ///
    /// # Examples
    ///
    /// ```
    /// use zugyelmas::prelude::*;
    /// use zugyelmas::turns::{atan2_turns_of, cos_turns_of, sin_cos_turns_of, sin_turns_of};
    /// use zugyelmas::word::{Outcome, Side};
    /// type Number = FixedI8<4>; // from -8 to 7.9375
    /// type Small = FixedI8<7>;
    /// let number = Number::from_num::<f64>;
    /// let quarter = Small::from_bits(32);
    /// let left = FixedI8::<8>::from_bits(-1); // on numbers from -1/2 to 127/256
    /// let none = FixedI8::<8>::ZERO;
    ///
    /// assert_eq!(number(0.3125).strict_sin_cos_turns(), (number(0.9375), number(-0.375)));
    /// ```
    ///
    /// ```should_panic
    /// # use zugyelmas::prelude::*;
    /// # use zugyelmas::turns::{atan2_turns_of, cos_turns_of, sin_cos_turns_of, sin_turns_of};
    /// # use zugyelmas::word::{Outcome, Side};
    /// # type Number = FixedI8<4>; // from -8 to 7.9375
    /// # type Small = FixedI8<7>;
    /// # let number = Number::from_num::<f64>;
    /// # let quarter = Small::from_bits(32);
    /// # let left = FixedI8::<8>::from_bits(-1); // on numbers from -1/2 to 127/256
    /// # let none = FixedI8::<8>::ZERO;
    /// # std::panic::set_hook(Box::new(|_| {}));
    /// quarter.strict_sin_cos_turns(); // the sine 1 does not fit
    /// ```
    ///
    /// # Compile errors
    ///
    /// Compiles only if the fraction F is at most the width.
    ///
    /// # Panics
    ///
    /// Panics unless the sine fits, and the cosine fits.
    ///
    /// # Proved
    ///
    /// ```text
    /// requires fraction { Self.FRACTION ≤ Self.BITS }
    /// requires sine { (r : ℤ) → IsSine (sine_room Self.BITS) (Self.number self) Self.FRACTION r
    ///     → InRange Self.SIGNED Self.BITS r }
    /// requires cosine { (r : ℤ) → IsCosine (sine_room Self.BITS) (Self.number self) Self.FRACTION r
    ///     → InRange Self.SIGNED Self.BITS r }
    /// ensures sine { IsSine (sine_room Self.BITS) (Self.number self) Self.FRACTION (Self.number result.0) }
    /// ensures cosine { IsCosine (sine_room Self.BITS) (Self.number self) Self.FRACTION (Self.number result.1) }
    /// ```
    ///
    /// Definitions: [`InRange`], [`sine_room`].
    ///
    /// [`InRange`]: crate::definitions::word_format
    /// [`sine_room`]: crate::definitions::turns_sines
    #[must_use]
    fn strict_sin_cos_turns(self) -> (Self, Self);

    /// Returns the angle of the point `(x, self)` in turns, from -1/2 to 1/2, rounded to the nearest. Precondition: the
    /// coordinates are not both 0.
    ///
    /// The result differs from the exact angle by at most half a unit plus `2^-k` radians, where k is 40 on words of up
    /// to 32 bits and 60 on words of 64 bits. Multiples of 1/8 are exact if they are whole numbers of units. If `self`
    /// is 0 and x is below 0, the exact angle is 1/2. Precondition: every result that these statements allow fits.
    ///
    /// # Examples
    ///
    /// ```
    /// use zugyelmas::prelude::*;
    /// use zugyelmas::turns::{atan2_turns_of, cos_turns_of, sin_cos_turns_of, sin_turns_of};
    /// use zugyelmas::word::{Outcome, Side};
    /// type Number = FixedI8<4>; // from -8 to 7.9375
    /// type Small = FixedI8<7>;
    /// let number = Number::from_num::<f64>;
    /// let quarter = Small::from_bits(32);
    /// let left = FixedI8::<8>::from_bits(-1); // on numbers from -1/2 to 127/256
    /// let none = FixedI8::<8>::ZERO;
    ///
    /// assert_eq!(number(3.0).strict_atan2_turns(number(-4.0)), number(0.375)); // 0.3975..
    /// ```
    ///
    /// ```should_panic
    /// # use zugyelmas::prelude::*;
    /// # use zugyelmas::turns::{atan2_turns_of, cos_turns_of, sin_cos_turns_of, sin_turns_of};
    /// # use zugyelmas::word::{Outcome, Side};
    /// # type Number = FixedI8<4>; // from -8 to 7.9375
    /// # type Small = FixedI8<7>;
    /// # let number = Number::from_num::<f64>;
    /// # let quarter = Small::from_bits(32);
    /// # let left = FixedI8::<8>::from_bits(-1); // on numbers from -1/2 to 127/256
    /// # let none = FixedI8::<8>::ZERO;
    /// # std::panic::set_hook(Box::new(|_| {}));
    /// none.strict_atan2_turns(left); // 1/2 does not fit
    /// ```
    ///
    /// ```should_panic
    /// # use zugyelmas::prelude::*;
    /// # use zugyelmas::turns::{atan2_turns_of, cos_turns_of, sin_cos_turns_of, sin_turns_of};
    /// # use zugyelmas::word::{Outcome, Side};
    /// # type Number = FixedI8<4>; // from -8 to 7.9375
    /// # type Small = FixedI8<7>;
    /// # let number = Number::from_num::<f64>;
    /// # let quarter = Small::from_bits(32);
    /// # let left = FixedI8::<8>::from_bits(-1); // on numbers from -1/2 to 127/256
    /// # let none = FixedI8::<8>::ZERO;
    /// # std::panic::set_hook(Box::new(|_| {}));
    /// none.strict_atan2_turns(none); // the coordinates are both 0
    /// ```
    ///
    /// # Compile errors
    ///
    /// Compiles only if the fraction F is at most the width.
    ///
    /// # Panics
    ///
    /// Panics unless the coordinates are not both 0, and the angle fits.
    ///
    /// # Proved
    ///
    /// ```text
    /// requires fraction { Self.FRACTION ≤ Self.BITS }
    /// requires some { Self.number x ≡ pos 0 → Self.number self ≢ pos 0 }
    /// requires fits { (r : ℤ) → IsAngleOf (turn_room Self.BITS) (Self.number x) (Self.number self) Self.FRACTION r
    ///     → InRange Self.SIGNED Self.BITS r }
    /// ensures { IsAngleOf (turn_room Self.BITS) (Self.number x) (Self.number self) Self.FRACTION (Self.number result) }
    /// ```
    ///
    /// Definitions: [`InRange`], [`turn_room`].
    ///
    /// [`InRange`]: crate::definitions::word_format
    /// [`turn_room`]: crate::definitions::turns_angles
    #[must_use]
    fn strict_atan2_turns(self, x: Self) -> Self;
}

/// The `strict_` calls of sines, cosines and angles of points in radians. Preconditions of each call: its results fit,
/// and F is at most the width. Operands and results are in units of `2^-F`.
pub trait StrictRadians: Number {
    /// Returns the sine of an angle in radians, rounded to the nearest.
    ///
    /// The result differs from the exact sine by at most half a unit plus `2^-k`, where k is 41 on words of up to 32
    /// bits and 61 on words of 64 bits. The sine of 0 is exact, and none is above 1 or below -1. Precondition: every
    /// result that these statements allow fits.
    ///
    /// # Examples
    ///
    /// ```
    /// use zugyelmas::prelude::*;
    /// use zugyelmas::turns::{atan2_of, cos_of, sin_cos_of, sin_of};
    /// use zugyelmas::word::{Outcome, Side};
    /// type Number = FixedI8<4>; // from -8 to 7.9375
    /// type Small = FixedI8<7>; // from -1 to 127/128
    /// let number = Number::from_num::<f64>;
    /// let four = FixedU8::<4>::from_bits(64); // an angle whose sine is below 0
    /// let (up, none) = (Small::MAX, Small::ZERO); // the angle of (none, up) is pi/2
    ///
    /// assert_eq!(number(1.25).strict_sin(), number(0.9375)); // 0.9489..
    /// ```
    ///
    /// ```should_panic
    /// # use zugyelmas::prelude::*;
    /// # use zugyelmas::turns::{atan2_of, cos_of, sin_cos_of, sin_of};
    /// # use zugyelmas::word::{Outcome, Side};
    /// # type Number = FixedI8<4>; // from -8 to 7.9375
    /// # type Small = FixedI8<7>; // from -1 to 127/128
    /// # let number = Number::from_num::<f64>;
    /// # let four = FixedU8::<4>::from_bits(64); // an angle whose sine is below 0
    /// # let (up, none) = (Small::MAX, Small::ZERO); // the angle of (none, up) is pi/2
    /// # std::panic::set_hook(Box::new(|_| {}));
    /// four.strict_sin(); // -0.7568.. does not fit
    /// ```
    ///
    /// # Compile errors
    ///
    /// Compiles only if the fraction F is at most the width.
    ///
    /// # Panics
    ///
    /// Panics unless the sine fits.
    ///
    /// # Proved
    ///
    /// ```text
    /// requires fraction { Self.FRACTION ≤ Self.BITS }
    /// requires fits { (r : ℤ) → IsRadianSine (sine_room Self.BITS) (Self.number self) Self.FRACTION r
    ///     → InRange Self.SIGNED Self.BITS r }
    /// ensures { IsRadianSine (sine_room Self.BITS) (Self.number self) Self.FRACTION (Self.number result) }
    /// ```
    ///
    /// Definitions: [`InRange`], [`sine_room`].
    ///
    /// [`InRange`]: crate::definitions::word_format
    /// [`sine_room`]: crate::definitions::turns_sines
    #[must_use]
    fn strict_sin(self) -> Self;

    /// Returns the cosine of an angle in radians, rounded to the nearest.
    ///
    /// The result differs from the exact cosine by at most half a unit plus `2^-k`, where k is 41 on words of up to 32
    /// bits and 61 on words of 64 bits. The cosine of 0 is exact, and none is above 1 or below -1. Precondition: every
    /// result that these statements allow fits.
    ///
    /// # Examples
    ///
    /// ```
    /// use zugyelmas::prelude::*;
    /// use zugyelmas::turns::{atan2_of, cos_of, sin_cos_of, sin_of};
    /// use zugyelmas::word::{Outcome, Side};
    /// type Number = FixedI8<4>; // from -8 to 7.9375
    /// type Small = FixedI8<7>; // from -1 to 127/128
    /// let number = Number::from_num::<f64>;
    /// let four = FixedU8::<4>::from_bits(64); // an angle whose sine is below 0
    /// let (up, none) = (Small::MAX, Small::ZERO); // the angle of (none, up) is pi/2
    ///
    /// assert_eq!(number(1.25).strict_cos(), number(0.3125)); // 0.3153..
    /// ```
    ///
    /// ```should_panic
    /// # use zugyelmas::prelude::*;
    /// # use zugyelmas::turns::{atan2_of, cos_of, sin_cos_of, sin_of};
    /// # use zugyelmas::word::{Outcome, Side};
    /// # type Number = FixedI8<4>; // from -8 to 7.9375
    /// # type Small = FixedI8<7>; // from -1 to 127/128
    /// # let number = Number::from_num::<f64>;
    /// # let four = FixedU8::<4>::from_bits(64); // an angle whose sine is below 0
    /// # let (up, none) = (Small::MAX, Small::ZERO); // the angle of (none, up) is pi/2
    /// # std::panic::set_hook(Box::new(|_| {}));
    /// Small::ZERO.strict_cos(); // 1 does not fit
    /// ```
    ///
    /// # Compile errors
    ///
    /// Compiles only if the fraction F is at most the width.
    ///
    /// # Panics
    ///
    /// Panics unless the cosine fits.
    ///
    /// # Proved
    ///
    /// ```text
    /// requires fraction { Self.FRACTION ≤ Self.BITS }
    /// requires fits { (r : ℤ) → IsRadianCosine (sine_room Self.BITS) (Self.number self) Self.FRACTION r
    ///     → InRange Self.SIGNED Self.BITS r }
    /// ensures { IsRadianCosine (sine_room Self.BITS) (Self.number self) Self.FRACTION (Self.number result) }
    /// ```
    ///
    /// Definitions: [`InRange`], [`sine_room`].
    ///
    /// [`InRange`]: crate::definitions::word_format
    /// [`sine_room`]: crate::definitions::turns_sines
    #[must_use]
    fn strict_cos(self) -> Self;

    /// Returns the sine and the cosine of an angle in radians, both rounded to the nearest.
    ///
    /// Each result differs from its exact value by at most half a unit plus `2^-k`, where k is 41 on words of up to 32
    /// bits and 61 on words of 64 bits. The results at 0 are exact, and none is above 1 or below -1. Precondition:
    /// every sine and every cosine that these statements allow fits.
    ///
    /// # Examples
    ///
    /// ```
    /// use zugyelmas::prelude::*;
    /// use zugyelmas::turns::{atan2_of, cos_of, sin_cos_of, sin_of};
    /// use zugyelmas::word::{Outcome, Side};
    /// type Number = FixedI8<4>; // from -8 to 7.9375
    /// type Small = FixedI8<7>; // from -1 to 127/128
    /// let number = Number::from_num::<f64>;
    /// let four = FixedU8::<4>::from_bits(64); // an angle whose sine is below 0
    /// let (up, none) = (Small::MAX, Small::ZERO); // the angle of (none, up) is pi/2
    ///
    /// assert_eq!(number(1.25).strict_sin_cos(), (number(0.9375), number(0.3125)));
    /// ```
    ///
    /// ```should_panic
    /// # use zugyelmas::prelude::*;
    /// # use zugyelmas::turns::{atan2_of, cos_of, sin_cos_of, sin_of};
    /// # use zugyelmas::word::{Outcome, Side};
    /// # type Number = FixedI8<4>; // from -8 to 7.9375
    /// # type Small = FixedI8<7>; // from -1 to 127/128
    /// # let number = Number::from_num::<f64>;
    /// # let four = FixedU8::<4>::from_bits(64); // an angle whose sine is below 0
    /// # let (up, none) = (Small::MAX, Small::ZERO); // the angle of (none, up) is pi/2
    /// # std::panic::set_hook(Box::new(|_| {}));
    /// four.strict_sin_cos(); // the sine -0.7568.. does not fit
    /// ```
    ///
    /// # Compile errors
    ///
    /// Compiles only if the fraction F is at most the width.
    ///
    /// # Panics
    ///
    /// Panics unless the sine fits, and the cosine fits.
    ///
    /// # Proved
    ///
    /// ```text
    /// requires fraction { Self.FRACTION ≤ Self.BITS }
    /// requires sine { (r : ℤ) → IsRadianSine (sine_room Self.BITS) (Self.number self) Self.FRACTION r
    ///     → InRange Self.SIGNED Self.BITS r }
    /// requires cosine { (r : ℤ) → IsRadianCosine (sine_room Self.BITS) (Self.number self) Self.FRACTION r
    ///     → InRange Self.SIGNED Self.BITS r }
    /// ensures sine { IsRadianSine (sine_room Self.BITS) (Self.number self) Self.FRACTION (Self.number result.0) }
    /// ensures cosine { IsRadianCosine (sine_room Self.BITS) (Self.number self) Self.FRACTION (Self.number result.1) }
    /// ```
    ///
    /// Definitions: [`InRange`], [`sine_room`].
    ///
    /// [`InRange`]: crate::definitions::word_format
    /// [`sine_room`]: crate::definitions::turns_sines
    #[must_use]
    fn strict_sin_cos(self) -> (Self, Self);

    /// Returns the angle of the point `(x, self)` in radians, from -pi to pi, rounded to the nearest. Precondition: the
    /// coordinates are not both 0.
    ///
    /// The result differs from the exact angle by at most half a unit plus `2^-k` radians, where k is 40 on words of up
    /// to 32 bits and 60 on words of 64 bits. The angle 0 is exact. If `self` is 0 and x is below 0, the exact angle is
    /// pi. Precondition: every result that these statements allow fits.
    ///
    /// # Examples
    ///
    /// ```
    /// use zugyelmas::prelude::*;
    /// use zugyelmas::turns::{atan2_of, cos_of, sin_cos_of, sin_of};
    /// use zugyelmas::word::{Outcome, Side};
    /// type Number = FixedI8<4>; // from -8 to 7.9375
    /// type Small = FixedI8<7>; // from -1 to 127/128
    /// let number = Number::from_num::<f64>;
    /// let four = FixedU8::<4>::from_bits(64); // an angle whose sine is below 0
    /// let (up, none) = (Small::MAX, Small::ZERO); // the angle of (none, up) is pi/2
    ///
    /// assert_eq!(number(3.0).strict_atan2(number(-4.0)), number(2.5)); // 2.4980..
    /// ```
    ///
    /// ```should_panic
    /// # use zugyelmas::prelude::*;
    /// # use zugyelmas::turns::{atan2_of, cos_of, sin_cos_of, sin_of};
    /// # use zugyelmas::word::{Outcome, Side};
    /// # type Number = FixedI8<4>; // from -8 to 7.9375
    /// # type Small = FixedI8<7>; // from -1 to 127/128
    /// # let number = Number::from_num::<f64>;
    /// # let four = FixedU8::<4>::from_bits(64); // an angle whose sine is below 0
    /// # let (up, none) = (Small::MAX, Small::ZERO); // the angle of (none, up) is pi/2
    /// # std::panic::set_hook(Box::new(|_| {}));
    /// up.strict_atan2(none); // pi/2 does not fit
    /// ```
    ///
    /// ```should_panic
    /// # use zugyelmas::prelude::*;
    /// # use zugyelmas::turns::{atan2_of, cos_of, sin_cos_of, sin_of};
    /// # use zugyelmas::word::{Outcome, Side};
    /// # type Number = FixedI8<4>; // from -8 to 7.9375
    /// # type Small = FixedI8<7>; // from -1 to 127/128
    /// # let number = Number::from_num::<f64>;
    /// # let four = FixedU8::<4>::from_bits(64); // an angle whose sine is below 0
    /// # let (up, none) = (Small::MAX, Small::ZERO); // the angle of (none, up) is pi/2
    /// # std::panic::set_hook(Box::new(|_| {}));
    /// none.strict_atan2(none); // the coordinates are both 0
    /// ```
    ///
    /// # Compile errors
    ///
    /// Compiles only if the fraction F is at most the width.
    ///
    /// # Panics
    ///
    /// Panics unless the coordinates are not both 0, and the angle fits.
    ///
    /// # Proved
    ///
    /// ```text
    /// requires fraction { Self.FRACTION ≤ Self.BITS }
    /// requires some { Self.number x ≡ pos 0 → Self.number self ≢ pos 0 }
    /// requires fits { (r : ℤ) → IsRadianAngle (sine_room Self.BITS) (Self.number x) (Self.number self) Self.FRACTION r
    ///     → InRange Self.SIGNED Self.BITS r }
    /// ensures { IsRadianAngle (sine_room Self.BITS) (Self.number x) (Self.number self) Self.FRACTION (Self.number result) }
    /// ```
    ///
    /// Definitions: [`InRange`], [`sine_room`].
    ///
    /// [`InRange`]: crate::definitions::word_format
    /// [`sine_room`]: crate::definitions::turns_sines
    #[must_use]
    fn strict_atan2(self, x: Self) -> Self;
}

impl<T: Word, const F: u32> StrictTurns for Fixed<T, F> {
    #[track_caller]
    fn strict_sin_turns(self) -> Self {
        const {
            assert!(
                F <= T::BITS,
                "precondition: the fraction F is at most the width"
            )
        };
        exact_number(sin_turns_of(self.bits, F))
    }

    #[track_caller]
    fn strict_cos_turns(self) -> Self {
        const {
            assert!(
                F <= T::BITS,
                "precondition: the fraction F is at most the width"
            )
        };
        exact_number(cos_turns_of(self.bits, F))
    }

    #[track_caller]
    fn strict_sin_cos_turns(self) -> (Self, Self) {
        const {
            assert!(
                F <= T::BITS,
                "precondition: the fraction F is at most the width"
            )
        };
        let (sine, cosine) = sin_cos_turns_of(self.bits, F);
        (exact_number(sine), exact_number(cosine))
    }

    #[track_caller]
    fn strict_atan2_turns(self, x: Self) -> Self {
        const {
            assert!(
                F <= T::BITS,
                "precondition: the fraction F is at most the width"
            )
        };
        assert!(
            x.bits.magnitude() > 0 || self.bits.magnitude() > 0,
            "precondition: the coordinates are not both 0"
        );
        exact_number(atan2_turns_of(self.bits, x.bits, F))
    }
}

impl<T: Word, const F: u32> StrictRadians for Fixed<T, F> {
    #[track_caller]
    fn strict_sin(self) -> Self {
        const {
            assert!(
                F <= T::BITS,
                "precondition: the fraction F is at most the width"
            )
        };
        exact_number(sin_of(self.bits, F))
    }

    #[track_caller]
    fn strict_cos(self) -> Self {
        const {
            assert!(
                F <= T::BITS,
                "precondition: the fraction F is at most the width"
            )
        };
        exact_number(cos_of(self.bits, F))
    }

    #[track_caller]
    fn strict_sin_cos(self) -> (Self, Self) {
        const {
            assert!(
                F <= T::BITS,
                "precondition: the fraction F is at most the width"
            )
        };
        let (sine, cosine) = sin_cos_of(self.bits, F);
        (exact_number(sine), exact_number(cosine))
    }

    #[track_caller]
    fn strict_atan2(self, x: Self) -> Self {
        const {
            assert!(
                F <= T::BITS,
                "precondition: the fraction F is at most the width"
            )
        };
        assert!(
            x.bits.magnitude() > 0 || self.bits.magnitude() > 0,
            "precondition: the coordinates are not both 0"
        );
        exact_number(atan2_of(self.bits, x.bits, F))
    }
}
