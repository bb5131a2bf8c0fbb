// Made by `make package` of crates/fixed_turns/src/checked.rt, which is proved: changes go there.

//! The `checked_` calls of sines, cosines and angles of points. The Rust crate `fixed` does not have them.

use crate::stopping::{Fixed, Held, Number, checked_number};
use crate::turns::directions::atan2_of;
use crate::turns::numbers::{both_numbers, is_origin};
use crate::turns::points::atan2_turns_of;
use crate::turns::radians::{cos_of, sin_cos_of, sin_of};
use crate::turns::sines::{cos_turns_of, sin_cos_turns_of, sin_turns_of};
use crate::word::{RawWord, Word};

/// The `checked_` calls of sines, cosines and angles of points. If a result does not fit, they return `None`. Operands
/// and results are in units of `2^-F`; angles are in turns. Precondition of each call: F is at most the width.
pub trait CheckedTurns: Number {
    /// Returns the sine of an angle in turns, rounded to the nearest, or `None` if it does not fit.
    ///
    /// The result differs from the exact sine by at most half a unit plus `2^-k`, where k is 41 on words of up to 32
    /// bits and 61 on words of 64 bits. Sines of whole quarter turns are exact, and none is above 1 or below -1.
    ///
    /// # Examples
    ///
    /// ```
    /// use zugyelmas::prelude::*;
    /// use zugyelmas::turns::{atan2_turns_of, cos_turns_of, sin_cos_turns_of, sin_turns_of};
    /// use zugyelmas::word::{Outcome, Side};
    /// type Number = FixedI8<4>; // from -8 to 7.9375
    /// type Small = FixedI8<7>;
    /// let number = Number::from_num::<f64>;
    /// let quarter = Small::from_bits(32);
    /// let left = FixedI8::<8>::from_bits(-1); // on numbers from -1/2 to 127/256
    /// let none = FixedI8::<8>::ZERO;
    ///
    /// assert_eq!(number(0.25).checked_sin_turns(), Some(number(1.0))); // a quarter turn
    /// // 0.9238.., to the nearest
    /// assert_eq!(number(0.3125).checked_sin_turns(), Some(number(0.9375)));
    /// assert_eq!(number(-0.3125).checked_sin_turns(), Some(number(-0.9375)));
    /// // whole turns change nothing
    /// assert_eq!(number(7.25).checked_sin_turns(), Some(number(1.0)));
    /// assert_eq!(quarter.checked_sin_turns(), None); // 1 does not fit
    /// assert_eq!(FixedU8::<4>::from_bits(12).checked_sin_turns(), None); // -1 does not fit
    /// ```
    ///
    /// # Compile errors
    ///
    /// Compiles only if the fraction F is at most the width.
    ///
    /// # Proved
    ///
    /// ```text
    /// requires { Self.FRACTION ≤ Self.BITS }
    /// ensures { (r : ℤ) × IsSine (sine_room Self.BITS) (Self.number self) Self.FRACTION r
    ///     × (option_map Self.number result ≡ checked Self.SIGNED Self.BITS (Some r)) }
    /// ```
    ///
    /// Definitions: [`checked`], [`sine_room`].
    ///
    /// [`checked`]: crate::definitions::word_policies
    /// [`sine_room`]: crate::definitions::turns_sines
    #[must_use]
    fn checked_sin_turns(self) -> Option<Self>;

    /// Returns the cosine of an angle in turns, rounded to the nearest, or `None` if it does not fit.
    ///
    /// The result differs from the exact cosine by at most half a unit plus `2^-k`, where k is 41 on words of up to 32
    /// bits and 61 on words of 64 bits. Cosines of whole quarter turns are exact, and none is above 1 or below -1.
    ///
    /// # Examples
    ///
    /// ```
    /// use zugyelmas::prelude::*;
    /// use zugyelmas::turns::{atan2_turns_of, cos_turns_of, sin_cos_turns_of, sin_turns_of};
    /// use zugyelmas::word::{Outcome, Side};
    /// type Number = FixedI8<4>; // from -8 to 7.9375
    /// type Small = FixedI8<7>;
    /// let number = Number::from_num::<f64>;
    /// let quarter = Small::from_bits(32);
    /// let left = FixedI8::<8>::from_bits(-1); // on numbers from -1/2 to 127/256
    /// let none = FixedI8::<8>::ZERO;
    ///
    /// assert_eq!(number(0.0).checked_cos_turns(), Some(number(1.0)));
    /// // -0.3826.., to the nearest
    /// assert_eq!(number(0.3125).checked_cos_turns(), Some(number(-0.375)));
    /// assert_eq!(number(0.25).checked_cos_turns(), Some(number(0.0)));
    /// assert_eq!(Small::ZERO.checked_cos_turns(), None); // 1 does not fit
    /// ```
    ///
    /// # Compile errors
    ///
    /// Compiles only if the fraction F is at most the width.
    ///
    /// # Proved
    ///
    /// ```text
    /// requires { Self.FRACTION ≤ Self.BITS }
    /// ensures { (r : ℤ) × IsCosine (sine_room Self.BITS) (Self.number self) Self.FRACTION r
    ///     × (option_map Self.number result ≡ checked Self.SIGNED Self.BITS (Some r)) }
    /// ```
    ///
    /// Definitions: [`checked`], [`sine_room`].
    ///
    /// [`checked`]: crate::definitions::word_policies
    /// [`sine_room`]: crate::definitions::turns_sines
    #[must_use]
    fn checked_cos_turns(self) -> Option<Self>;

    /// Returns the sine and the cosine of an angle in turns, both rounded to the nearest, or `None` if one of them does
    /// not fit.
    ///
    /// Each result differs from its exact value by at most half a unit plus `2^-k`, where k is 41 on words of up to 32
    /// bits and 61 on words of 64 bits. The results at whole quarter turns are exact, and none is above 1 or below -1.
    ///
    /// # Examples
    ///
    /// ```
    /// use zugyelmas::prelude::*;
    /// use zugyelmas::turns::{atan2_turns_of, cos_turns_of, sin_cos_turns_of, sin_turns_of};
    /// use zugyelmas::word::{Outcome, Side};
    /// type Number = FixedI8<4>; // from -8 to 7.9375
    /// type Small = FixedI8<7>;
    /// let number = Number::from_num::<f64>;
    /// let quarter = Small::from_bits(32);
    /// let left = FixedI8::<8>::from_bits(-1); // on numbers from -1/2 to 127/256
    /// let none = FixedI8::<8>::ZERO;
    ///
    /// assert_eq!(number(0.3125).checked_sin_cos_turns(), Some((number(0.9375), number(-0.375))));
    /// assert_eq!(Small::ZERO.checked_sin_cos_turns(), None); // the cosine 1 does not fit
    /// ```
    ///
    /// # Compile errors
    ///
    /// Compiles only if the fraction F is at most the width.
    ///
    /// # Proved
    ///
    /// ```text
    /// requires { Self.FRACTION ≤ Self.BITS }
    /// ensures { (s c : ℤ) × IsSine (sine_room Self.BITS) (Self.number self) Self.FRACTION s
    ///     × IsCosine (sine_room Self.BITS) (Self.number self) Self.FRACTION c
    ///     × (option_map (λ pair. (Self.number pair.0, Self.number pair.1)) result
    ///     ≡ both (checked Self.SIGNED Self.BITS (Some s)) (checked Self.SIGNED Self.BITS (Some c))) }
    /// ```
    ///
    /// Definitions: [`checked`], [`both`], [`sine_room`].
    ///
    /// [`checked`]: crate::definitions::word_policies
    /// [`both`]: crate::definitions::turns_sines
    /// [`sine_room`]: crate::definitions::turns_sines
    #[must_use]
    fn checked_sin_cos_turns(self) -> Option<(Self, Self)>;

    /// Returns the angle of the point `(x, self)` in turns, from -1/2 to 1/2, rounded to the nearest, or `None` if both
    /// coordinates are 0 or the result does not fit.
    ///
    /// The result differs from the exact angle by at most half a unit plus `2^-k` radians, where k is 40 on words of up
    /// to 32 bits and 60 on words of 64 bits. Multiples of 1/8 are exact if they are whole numbers of units. If `self`
    /// is 0 and x is below 0, the exact angle is 1/2.
    ///
    /// # Examples
    ///
    /// ```
    /// use zugyelmas::prelude::*;
    /// use zugyelmas::turns::{atan2_turns_of, cos_turns_of, sin_cos_turns_of, sin_turns_of};
    /// use zugyelmas::word::{Outcome, Side};
    /// type Number = FixedI8<4>; // from -8 to 7.9375
    /// type Small = FixedI8<7>;
    /// let number = Number::from_num::<f64>;
    /// let quarter = Small::from_bits(32);
    /// let left = FixedI8::<8>::from_bits(-1); // on numbers from -1/2 to 127/256
    /// let none = FixedI8::<8>::ZERO;
    ///
    /// assert_eq!(number(7.5).checked_atan2_turns(number(7.5)), Some(number(0.125)));
    /// // -0.3975..
    /// assert_eq!(number(-3.0).checked_atan2_turns(number(-4.0)), Some(number(-0.375)));
    /// // half a turn
    /// assert_eq!(number(0.0).checked_atan2_turns(number(-1.0)), Some(number(0.5)));
    /// assert_eq!(none.checked_atan2_turns(left), None); // 1/2 does not fit
    /// assert_eq!(none.checked_atan2_turns(none), None); // the coordinates are both 0
    /// ```
    ///
    /// # Compile errors
    ///
    /// Compiles only if the fraction F is at most the width.
    ///
    /// # Proved
    ///
    /// ```text
    /// requires { Self.FRACTION ≤ Self.BITS }
    /// ensures none { Self.number x ≡ pos 0 → Self.number self ≡ pos 0 → result ≡ None }
    /// ensures angle { (Self.number x ≡ pos 0 → Self.number self ≢ pos 0)
    ///     → (r : ℤ) × IsAngleOf (turn_room Self.BITS) (Self.number x) (Self.number self) Self.FRACTION r
    ///     × (option_map Self.number result ≡ checked Self.SIGNED Self.BITS (Some r)) }
    /// ```
    ///
    /// Definitions: [`checked`], [`turn_room`].
    ///
    /// [`checked`]: crate::definitions::word_policies
    /// [`turn_room`]: crate::definitions::turns_angles
    #[must_use]
    fn checked_atan2_turns(self, x: Self) -> Option<Self>;
}

/// The `checked_` calls of sines, cosines and angles of points in radians. If a result does not fit, they return
/// `None`. Operands and results are in units of `2^-F`. Precondition of each call: F is at most the width.
pub trait CheckedRadians: Number {
    /// Returns the sine of an angle in radians, rounded to the nearest, or `None` if it does not fit.
    ///
    /// The result differs from the exact sine by at most half a unit plus `2^-k`, where k is 41 on words of up to 32
    /// bits and 61 on words of 64 bits. The sine of 0 is exact, and none is above 1 or below -1.
    ///
    /// # Examples
    ///
    /// ```
    /// use zugyelmas::prelude::*;
    /// use zugyelmas::turns::{atan2_of, cos_of, sin_cos_of, sin_of};
    /// use zugyelmas::word::{Outcome, Side};
    /// type Number = FixedI8<4>; // from -8 to 7.9375
    /// type Small = FixedI8<7>; // from -1 to 127/128
    /// let number = Number::from_num::<f64>;
    /// let four = FixedU8::<4>::from_bits(64); // an angle whose sine is below 0
    /// let (up, none) = (Small::MAX, Small::ZERO); // the angle of (none, up) is pi/2
    ///
    /// assert_eq!(number(0.5).checked_sin(), Some(number(0.5))); // 0.4794.., to the nearest
    /// assert_eq!(number(1.25).checked_sin(), Some(number(0.9375))); // 0.9489..
    /// assert_eq!(number(-1.25).checked_sin(), Some(number(-0.9375)));
    /// assert_eq!(number(0.0).checked_sin(), Some(number(0.0))); // exact
    /// assert_eq!(four.checked_sin(), None); // -0.7568.. does not fit
    /// ```
    ///
    /// # Compile errors
    ///
    /// Compiles only if the fraction F is at most the width.
    ///
    /// # Proved
    ///
    /// ```text
    /// requires { Self.FRACTION ≤ Self.BITS }
    /// ensures { (r : ℤ) × IsRadianSine (sine_room Self.BITS) (Self.number self) Self.FRACTION r
    ///     × (option_map Self.number result ≡ checked Self.SIGNED Self.BITS (Some r)) }
    /// ```
    ///
    /// Definitions: [`checked`], [`sine_room`].
    ///
    /// [`checked`]: crate::definitions::word_policies
    /// [`sine_room`]: crate::definitions::turns_sines
    #[must_use]
    fn checked_sin(self) -> Option<Self>;

    /// Returns the cosine of an angle in radians, rounded to the nearest, or `None` if it does not fit.
    ///
    /// The result differs from the exact cosine by at most half a unit plus `2^-k`, where k is 41 on words of up to 32
    /// bits and 61 on words of 64 bits. The cosine of 0 is exact, and none is above 1 or below -1.
    ///
    /// # Examples
    ///
    /// ```
    /// use zugyelmas::prelude::*;
    /// use zugyelmas::turns::{atan2_of, cos_of, sin_cos_of, sin_of};
    /// use zugyelmas::word::{Outcome, Side};
    /// type Number = FixedI8<4>; // from -8 to 7.9375
    /// type Small = FixedI8<7>; // from -1 to 127/128
    /// let number = Number::from_num::<f64>;
    /// let four = FixedU8::<4>::from_bits(64); // an angle whose sine is below 0
    /// let (up, none) = (Small::MAX, Small::ZERO); // the angle of (none, up) is pi/2
    ///
    /// assert_eq!(number(0.0).checked_cos(), Some(number(1.0))); // exact
    /// // 0.3153.., to the nearest
    /// assert_eq!(number(1.25).checked_cos(), Some(number(0.3125)));
    /// assert_eq!(number(-8.0).checked_cos(), Some(number(-0.125))); // -0.1455..
    /// assert_eq!(Small::ZERO.checked_cos(), None); // 1 does not fit
    /// ```
    ///
    /// # Compile errors
    ///
    /// Compiles only if the fraction F is at most the width.
    ///
    /// # Proved
    ///
    /// ```text
    /// requires { Self.FRACTION ≤ Self.BITS }
    /// ensures { (r : ℤ) × IsRadianCosine (sine_room Self.BITS) (Self.number self) Self.FRACTION r
    ///     × (option_map Self.number result ≡ checked Self.SIGNED Self.BITS (Some r)) }
    /// ```
    ///
    /// Definitions: [`checked`], [`sine_room`].
    ///
    /// [`checked`]: crate::definitions::word_policies
    /// [`sine_room`]: crate::definitions::turns_sines
    #[must_use]
    fn checked_cos(self) -> Option<Self>;

    /// Returns the sine and the cosine of an angle in radians, both rounded to the nearest, or `None` if one of them
    /// does not fit.
    ///
    /// Each result differs from its exact value by at most half a unit plus `2^-k`, where k is 41 on words of up to 32
    /// bits and 61 on words of 64 bits. The results at 0 are exact, and none is above 1 or below -1.
    ///
    /// # Examples
    ///
    /// ```
    /// use zugyelmas::prelude::*;
    /// use zugyelmas::turns::{atan2_of, cos_of, sin_cos_of, sin_of};
    /// use zugyelmas::word::{Outcome, Side};
    /// type Number = FixedI8<4>; // from -8 to 7.9375
    /// type Small = FixedI8<7>; // from -1 to 127/128
    /// let number = Number::from_num::<f64>;
    /// let four = FixedU8::<4>::from_bits(64); // an angle whose sine is below 0
    /// let (up, none) = (Small::MAX, Small::ZERO); // the angle of (none, up) is pi/2
    ///
    /// assert_eq!(number(1.25).checked_sin_cos(), Some((number(0.9375), number(0.3125))));
    /// assert_eq!(Small::ZERO.checked_sin_cos(), None); // the cosine 1 does not fit
    /// ```
    ///
    /// # Compile errors
    ///
    /// Compiles only if the fraction F is at most the width.
    ///
    /// # Proved
    ///
    /// ```text
    /// requires { Self.FRACTION ≤ Self.BITS }
    /// ensures { (s c : ℤ) × IsRadianSine (sine_room Self.BITS) (Self.number self) Self.FRACTION s
    ///     × IsRadianCosine (sine_room Self.BITS) (Self.number self) Self.FRACTION c
    ///     × (option_map (λ pair. (Self.number pair.0, Self.number pair.1)) result
    ///     ≡ both (checked Self.SIGNED Self.BITS (Some s)) (checked Self.SIGNED Self.BITS (Some c))) }
    /// ```
    ///
    /// Definitions: [`checked`], [`both`], [`sine_room`].
    ///
    /// [`checked`]: crate::definitions::word_policies
    /// [`both`]: crate::definitions::turns_sines
    /// [`sine_room`]: crate::definitions::turns_sines
    #[must_use]
    fn checked_sin_cos(self) -> Option<(Self, Self)>;

    /// Returns the angle of the point `(x, self)` in radians, from -pi to pi, rounded to the nearest, or `None` if both
    /// coordinates are 0 or the result does not fit.
    ///
    /// The result differs from the exact angle by at most half a unit plus `2^-k` radians, where k is 40 on words of up
    /// to 32 bits and 60 on words of 64 bits. The angle 0 is exact. If `self` is 0 and x is below 0, the exact angle is
    /// pi.
    ///
    /// # Examples
    ///
    /// ```
    /// use zugyelmas::prelude::*;
    /// use zugyelmas::turns::{atan2_of, cos_of, sin_cos_of, sin_of};
    /// use zugyelmas::word::{Outcome, Side};
    /// type Number = FixedI8<4>; // from -8 to 7.9375
    /// type Small = FixedI8<7>; // from -1 to 127/128
    /// let number = Number::from_num::<f64>;
    /// let four = FixedU8::<4>::from_bits(64); // an angle whose sine is below 0
    /// let (up, none) = (Small::MAX, Small::ZERO); // the angle of (none, up) is pi/2
    ///
    /// // 0.7853.., to the nearest
    /// assert_eq!(number(7.5).checked_atan2(number(7.5)), Some(number(0.8125)));
    /// // -2.4980..
    /// assert_eq!(number(-3.0).checked_atan2(number(-4.0)), Some(number(-2.5)));
    /// assert_eq!(number(0.0).checked_atan2(number(-1.0)), Some(number(3.125))); // pi
    /// assert_eq!(number(0.0).checked_atan2(number(1.0)), Some(number(0.0))); // exact
    /// assert_eq!(up.checked_atan2(none), None); // pi/2 does not fit
    /// assert_eq!(none.checked_atan2(none), None); // the coordinates are both 0
    /// ```
    ///
    /// # Compile errors
    ///
    /// Compiles only if the fraction F is at most the width.
    ///
    /// # Proved
    ///
    /// ```text
    /// requires { Self.FRACTION ≤ Self.BITS }
    /// ensures none { Self.number x ≡ pos 0 → Self.number self ≡ pos 0 → result ≡ None }
    /// ensures angle { (Self.number x ≡ pos 0 → Self.number self ≢ pos 0)
    ///     → (r : ℤ) × IsRadianAngle (sine_room Self.BITS) (Self.number x) (Self.number self) Self.FRACTION r
    ///     × (option_map Self.number result ≡ checked Self.SIGNED Self.BITS (Some r)) }
    /// ```
    ///
    /// Definitions: [`checked`], [`sine_room`].
    ///
    /// [`checked`]: crate::definitions::word_policies
    /// [`sine_room`]: crate::definitions::turns_sines
    #[must_use]
    fn checked_atan2(self, x: Self) -> Option<Self>;
}

impl<T: Word, const F: u32> CheckedTurns for Fixed<T, F> {
    #[track_caller]
    fn checked_sin_turns(self) -> Option<Self> {
        const {
            assert!(
                F <= T::BITS,
                "precondition: the fraction F is at most the width"
            )
        };
        checked_number(sin_turns_of(self.bits, F))
    }

    #[track_caller]
    fn checked_cos_turns(self) -> Option<Self> {
        const {
            assert!(
                F <= T::BITS,
                "precondition: the fraction F is at most the width"
            )
        };
        checked_number(cos_turns_of(self.bits, F))
    }

    #[track_caller]
    fn checked_sin_cos_turns(self) -> Option<(Self, Self)> {
        const {
            assert!(
                F <= T::BITS,
                "precondition: the fraction F is at most the width"
            )
        };
        let (sine, cosine) = sin_cos_turns_of(self.bits, F);
        both_numbers(checked_number(sine), checked_number(cosine))
    }

    #[track_caller]
    fn checked_atan2_turns(self, x: Self) -> Option<Self> {
        const {
            assert!(
                F <= T::BITS,
                "precondition: the fraction F is at most the width"
            )
        };
        if is_origin(self.bits, x.bits) {
            return None;
        }
        checked_number(atan2_turns_of(self.bits, x.bits, F))
    }
}

impl<T: Word, const F: u32> CheckedRadians for Fixed<T, F> {
    #[track_caller]
    fn checked_sin(self) -> Option<Self> {
        const {
            assert!(
                F <= T::BITS,
                "precondition: the fraction F is at most the width"
            )
        };
        checked_number(sin_of(self.bits, F))
    }

    #[track_caller]
    fn checked_cos(self) -> Option<Self> {
        const {
            assert!(
                F <= T::BITS,
                "precondition: the fraction F is at most the width"
            )
        };
        checked_number(cos_of(self.bits, F))
    }

    #[track_caller]
    fn checked_sin_cos(self) -> Option<(Self, Self)> {
        const {
            assert!(
                F <= T::BITS,
                "precondition: the fraction F is at most the width"
            )
        };
        let (sine, cosine) = sin_cos_of(self.bits, F);
        both_numbers(checked_number(sine), checked_number(cosine))
    }

    #[track_caller]
    fn checked_atan2(self, x: Self) -> Option<Self> {
        const {
            assert!(
                F <= T::BITS,
                "precondition: the fraction F is at most the width"
            )
        };
        if is_origin(self.bits, x.bits) {
            return None;
        }
        checked_number(atan2_of(self.bits, x.bits, F))
    }
}
