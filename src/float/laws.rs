// Made by `make package` of crates/fixed_float/src/laws.rt, which is proved: changes go there.

//! Laws of floats and of the nearest ones. These functions do nothing: the contract of each is the law.

/// The meaning of a float's bits: a field below `ones` belongs to a number, a signed multiple of the least float above
/// 0, which is `2^-low`. The field `ones` belongs to an infinity if the fraction is 0, and otherwise to a NaN.
///
/// # Proved
///
/// ```text
/// ensures number { (f : Format) (b : ℕ) → field_of f b < ones f
///     → HasValue (of_bits f b) (nat_le (top f) b) (least_floats f (field_of f b) (fraction_of f b)) (2 ^ low f) }
/// ensures infinite { (f : Format) (b : ℕ) → field_of f b ≡ ones f → fraction_of f b ≡ 0
///     → of_bits f b ≡ inf (nat_le (top f) b) }
/// ensures not_a_number { (f : Format) (b : ℕ) → field_of f b ≡ ones f → fraction_of f b ≢ 0
///     → of_bits f b ≡ nan }
/// ```
///
/// Definitions: [`field_of`], [`fraction_of`], [`least_floats`].
///
/// [`field_of`]: crate::definitions::float_patterns
/// [`fraction_of`]: crate::definitions::float_patterns
/// [`least_floats`]: crate::definitions::float_patterns
pub fn pattern_law() {}

/// No finite float is nearer to a number of a word than its float, and if another one is as near, the last bit is 0.
/// The float of a number below 0 is the negated float of its magnitude.
///
/// # Proved
///
/// ```text
/// ensures nearest { (f : Format) (n g : ℕ) → n < 2 ^ 64 → g ≤ 64
///     → (b : ℕ) × (of_bits f b ≡ nearest_float f (pos n) g) × IsNearestOfAll f (pos n) (2 ^ g) b }
/// ensures below_zero { (f : Format) (n g : ℕ)
///     → nearest_float f (negsuc n) g ≡ neg (nearest_float f (pos (suc n)) g) }
/// ```
///
/// Definitions: [`nearest_float`].
///
/// [`nearest_float`]: crate::definitions::float_rows
pub fn nearest_law() {}

/// A number of at most as many digits as a significand has, 53 or 24, is exactly a float, and converts back to the same
/// number, with any rounding.
///
/// # Proved
///
/// ```text
/// ensures { (f : Format) (a : ℤ) (g : ℕ) (r : Rounding) → unsigned_abs a < 2 ^ prec f → g ≤ 64
///     → units_of_float (nearest_float f a g) g r ≡ Some a }
/// ```
///
/// Definitions: [`nearest_float`], [`units_of_float`].
///
/// [`nearest_float`]: crate::definitions::float_rows
/// [`units_of_float`]: crate::definitions::float_rows
pub fn exact_law() {}
