// Made by `make package` of crates/fixed_turns/src/laws.rt, which is proved: changes go there.

//! Laws of sines, cosines and angles of points. These functions do nothing: the contract of each is the law.

/// The sines of 0, 1/4, 1/2 and 3/4 are exact. A number that meets the bound for the sine of an angle also meets it a
/// whole turn further, and its negative meets it for the sine of minus the angle. No sine is above 1 or below -1. On
/// signed words whose largest number is at least 1, each sine fits.
///
/// # Proved
///
/// ```text
/// ensures of_zero { (k f : ℕ) (r : ℤ) → IsSine k (pos 0) f r → r ≡ pos 0 }
/// ensures of_quarter { (k f : ℕ) (a r : ℤ) → pos 4 *ℤ a ≡ pos (2 ^ f) → IsSine k a f r → r ≡ pos (2 ^ f) }
/// ensures of_half { (k f : ℕ) (a r : ℤ) → pos 4 *ℤ a ≡ pos (2 * 2 ^ f) → IsSine k a f r → r ≡ pos 0 }
/// ensures of_three_quarters { (k f : ℕ) (a r : ℤ) → pos 4 *ℤ a ≡ pos (3 * 2 ^ f) → IsSine k a f r
///     → r ≡ neg_ℤ (pos (2 ^ f)) }
/// ensures turn { (k f : ℕ) (a r : ℤ) → IsSine k a f r → IsSine k (a +ℤ pos (2 ^ f)) f r }
/// ensures minus { (k f : ℕ) (a r : ℤ) → IsSine k a f r → IsSine k (neg_ℤ a) f (neg_ℤ r) }
/// ensures least { (k f : ℕ) (a r : ℤ) → IsSine k a f r → neg_ℤ (pos (2 ^ f)) ≤ℤ r }
/// ensures most { (k f : ℕ) (a r : ℤ) → IsSine k a f r → r ≤ℤ pos (2 ^ f) }
/// ensures fits { (k n f : ℕ) (a r : ℤ) → f + 1 < n → IsSine k a f r → InRange true n r }
/// ```
///
/// Definitions: [`InRange`].
///
/// [`InRange`]: crate::definitions::word_format
pub fn sine_law() {}

/// A number that meets the bound for the cosine of an angle meets it for the sine of a quarter turn more. On signed
/// words whose largest number is at least 1, each cosine fits. The squares of the sine and the cosine of one angle have
/// the sum 1, up to `2 * 2^-f + 4 * 2^-k`, for k from 8 to 76.
///
/// # Proved
///
/// ```text
/// ensures as_sine { (k f : ℕ) (a b r : ℤ) → pos 4 *ℤ b ≡ pos 4 *ℤ a +ℤ pos (2 ^ f) → IsCosine k a f r → IsSine k b f r }
/// ensures fits { (k n f : ℕ) (a r : ℤ) → f + 1 < n → IsCosine k a f r → InRange true n r }
/// ensures squares { (k f : ℕ) (a s c : ℤ) → 8 ≤ k → k ≤ 76 → IsSine k a f s → IsCosine k a f c
///     → IsOfUnitLength k f s c }
/// ```
///
/// Definitions: [`InRange`].
///
/// [`InRange`]: crate::definitions::word_format
pub fn cosine_law() {}

/// In radians, the sine of 0 is 0 and its cosine is 1. A number that meets the bound for the cosine of an angle also
/// meets it for minus the angle, and the negative of one that meets it for the sine does so for minus the angle. No sine
/// or cosine is above 1 or below -1. On signed words whose largest number is at least 1, each one fits. The squares of
/// the sine and the cosine of one angle have the sum 1, up to `2 * 2^-f + 4 * 2^-k`, for k from 8 to 76.
///
/// # Proved
///
/// ```text
/// ensures sine_of_zero { (k f : ℕ) (r : ℤ) → IsRadianSine k (pos 0) f r → r ≡ pos 0 }
/// ensures cosine_of_zero { (k f : ℕ) (r : ℤ) → IsRadianCosine k (pos 0) f r → r ≡ pos (2 ^ f) }
/// ensures sine_of_minus { (k f : ℕ) (a r : ℤ) → IsRadianSine k a f r → IsRadianSine k (neg_ℤ a) f (neg_ℤ r) }
/// ensures cosine_of_minus { (k f : ℕ) (a r : ℤ) → IsRadianCosine k a f r → IsRadianCosine k (neg_ℤ a) f r }
/// ensures sine_least { (k f : ℕ) (a r : ℤ) → IsRadianSine k a f r → neg_ℤ (pos (2 ^ f)) ≤ℤ r }
/// ensures sine_most { (k f : ℕ) (a r : ℤ) → IsRadianSine k a f r → r ≤ℤ pos (2 ^ f) }
/// ensures cosine_least { (k f : ℕ) (a r : ℤ) → IsRadianCosine k a f r → neg_ℤ (pos (2 ^ f)) ≤ℤ r }
/// ensures cosine_most { (k f : ℕ) (a r : ℤ) → IsRadianCosine k a f r → r ≤ℤ pos (2 ^ f) }
/// ensures sine_fits { (k n f : ℕ) (a r : ℤ) → f + 1 < n → IsRadianSine k a f r → InRange true n r }
/// ensures cosine_fits { (k n f : ℕ) (a r : ℤ) → f + 1 < n → IsRadianCosine k a f r → InRange true n r }
/// ensures squares { (k f : ℕ) (a s c : ℤ) → 8 ≤ k → k ≤ 76 → IsRadianSine k a f s → IsRadianCosine k a f c
///     → IsOfUnitLength k f s c }
/// ```
///
/// Definitions: [`InRange`].
///
/// [`InRange`]: crate::definitions::word_format
pub fn radian_law() {}

/// Angles of points are from -1/2 to 1/2. If y is not 0, the negative of the angle of `(x, y)` is that of `(x, -y)`. On
/// signed words, each angle fits if F is below the width.
///
/// # Proved
///
/// ```text
/// ensures least { (k f : ℕ) (x y r : ℤ) → IsAngleOf k x y f r → neg_ℤ (pos (2 ^ f)) ≤ℤ (pos 2 *ℤ r) }
/// ensures most { (k f : ℕ) (x y r : ℤ) → IsAngleOf k x y f r → (pos 2 *ℤ r) ≤ℤ pos (2 ^ f) }
/// ensures minus { (k f : ℕ) (x y r : ℤ) → y ≢ pos 0 → IsAngleOf k x y f r → IsAngleOf k x (neg_ℤ y) f (neg_ℤ r) }
/// ensures fits { (k n f : ℕ) (x y r : ℤ) → f < n → IsAngleOf k x y f r → InRange true n r }
/// ```
///
/// Definitions: [`InRange`].
///
/// [`InRange`]: crate::definitions::word_format
pub fn angle_law() {}

/// In radians, the angle of a point on the axis to the right of the origin is 0. If y is not 0, the negative of a number
/// that meets the bound for the angle of `(x, y)` meets it for that of `(x, -y)`. On signed words with at least three bits
/// before the point, besides the sign, each angle fits.
///
/// # Proved
///
/// ```text
/// ensures axis { (k f : ℕ) (x r : ℤ) → pos 0 <ℤ x → IsRadianAngle k x (pos 0) f r → r ≡ pos 0 }
/// ensures minus { (k f : ℕ) (x y r : ℤ) → y ≢ pos 0 → IsRadianAngle k x y f r
///     → IsRadianAngle k x (neg_ℤ y) f (neg_ℤ r) }
/// ensures fits { (k n f : ℕ) (x y r : ℤ) → f + 3 < n → IsRadianAngle k x y f r → InRange true n r }
/// ```
///
/// Definitions: [`InRange`].
///
/// [`InRange`]: crate::definitions::word_format
pub fn radian_angle_law() {}

/// The decimals of pi are those of the angle of half a turn, at which the series of the sine comes to 0: by `pi`, each
/// sum of more than 25 terms is above 0, and by `pi + 1` none is, where `pi` is a number of units of `10^-39`.
///
/// # Proved
///
/// ```text
/// ensures above_zero { (n : ℕ) → 0 < (sine_series (radians pi 2 0) (n + 25)).num }
/// ensures not_above_zero { (n : ℕ) → (sine_series (radians (pi + 1) 2 0) (n + 25)).num ≡ 0 }
/// ```
///
/// Definitions: [`sine_series`], [`pi`], [`radians`].
///
/// [`sine_series`]: crate::definitions::turns_series
/// [`pi`]: crate::definitions::turns_sines
/// [`radians`]: crate::definitions::turns_sines
pub fn pi_law() {}
