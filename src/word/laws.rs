// Made by `make package` of crates/fixed_word/src/laws.rt, which is proved: changes go there.

//! Laws of the definitions. These functions do nothing: the contract of each is the law.

/// `wrap` returns the only number that fits and is congruent modulo `2^n`.
///
/// # Proved
///
/// ```text
/// ensures in_range { (s : Bool) (n : ℕ) (x : ℤ) → IsWidth n → InRange s n (wrap s n x) }
/// ensures congruent { (s : Bool) (n : ℕ) (x : ℤ) → IsWidth n → Congruent (2 ^ n) x (wrap s n x) }
/// ensures unique { (s : Bool) (n : ℕ) (x y : ℤ) → IsWidth n → InRange s n y
///     → Congruent (2 ^ n) x y → wrap s n x ≡ y }
/// ```
///
/// Definitions: [`Congruent`], [`InRange`], [`IsWidth`], [`wrap`].
///
/// [`Congruent`]: crate::definitions::word_format
/// [`InRange`]: crate::definitions::word_format
/// [`IsWidth`]: crate::definitions::word_format
/// [`wrap`]: crate::definitions::word_format
pub fn wrap_law() {}

/// A number that fits is restored by a conversion to the unsigned or signed word of its width and back.
///
/// # Proved
///
/// ```text
/// ensures by_unsigned { (s : Bool) (n : ℕ) (x : ℤ) → IsWidth n → InRange s n x
///     → wrap s n (wrap false n x) ≡ x }
/// ensures by_signed { (s : Bool) (n : ℕ) (x : ℤ) → IsWidth n → InRange s n x
///     → wrap s n (wrap true n x) ≡ x }
/// ```
///
/// Definitions: [`InRange`], [`IsWidth`], [`wrap`].
///
/// [`InRange`]: crate::definitions::word_format
/// [`IsWidth`]: crate::definitions::word_format
/// [`wrap`]: crate::definitions::word_format
pub fn return_law() {}

/// `clamp` returns the nearest number that fits: x itself if x fits, and otherwise the end of the range on its side.
///
/// # Proved
///
/// ```text
/// ensures in_range { (s : Bool) (n : ℕ) (x : ℤ) → InRange s n (clamp s n x) }
/// ensures same { (s : Bool) (n : ℕ) (x : ℤ) → InRange s n x → clamp s n x ≡ x }
/// ensures below { (s : Bool) (n : ℕ) (x : ℤ) → x <ℤ lowest s n → clamp s n x ≡ lowest s n }
/// ensures above { (s : Bool) (n : ℕ) (x : ℤ) → highest s n <ℤ x → clamp s n x ≡ highest s n }
/// ensures nearest { (s : Bool) (n : ℕ) (x y : ℤ) → InRange s n y
///     → unsigned_abs (x -ℤ clamp s n x) ≤ unsigned_abs (x -ℤ y) }
/// ```
///
/// Definitions: [`InRange`], [`clamp`], [`highest`], [`lowest`].
///
/// [`InRange`]: crate::definitions::word_format
/// [`clamp`]: crate::definitions::word_format
/// [`highest`]: crate::definitions::word_format
/// [`lowest`]: crate::definitions::word_format
pub fn clamp_law() {}

/// The test `fits` is true if and only if the number is in the range.
///
/// # Proved
///
/// ```text
/// ensures { (s : Bool) (n : ℕ) (x : ℤ) → IsTrue (fits s n x) ↔ InRange s n x }
/// ```
///
/// Definitions: [`InRange`], [`fits`].
///
/// [`InRange`]: crate::definitions::word_format
/// [`fits`]: crate::definitions::word_format
pub fn fits_law() {}

/// The quotients meet the equations that define them. Only the floor meets the equations of the floor.
///
/// # Proved
///
/// ```text
/// ensures floor { (x : ℤ) (d : ℕ) → 0 < d → IsFloor x d (floor_quotient x d) }
/// ensures floor_unique { (x q : ℤ) (d : ℕ) → 0 < d → IsFloor x d q → floor_quotient x d ≡ q }
/// ensures trunc { (x d : ℤ) → d ≢ pos 0 → IsTruncated x d (truncated_quotient x d) }
/// ensures euclid { (x d : ℤ) → d ≢ pos 0
///     → IsEuclidean x d (euclidean_quotient x d) (euclidean_remainder x d) }
/// ```
///
/// Definitions: [`euclidean_quotient`], [`euclidean_remainder`], [`floor_quotient`], [`truncated_quotient`].
///
/// [`euclidean_quotient`]: crate::definitions::word_quotient
/// [`euclidean_remainder`]: crate::definitions::word_quotient
/// [`floor_quotient`]: crate::definitions::word_quotient
/// [`truncated_quotient`]: crate::definitions::word_quotient
pub fn quotient_law() {}
