// Made by `make package` of crates/fixed_convert/src/laws.rt, which is proved: changes go there.

//! Laws of the definitions. These functions do nothing: the contract of each is the law.

/// A conversion without a named rounding rounds down. If the new unit is not larger than the old one, the conversion
/// is exact, and the conversion back restores the number.
///
/// # Proved
///
/// ```text
/// ensures default { (a : ℤ) (f g : ℕ) → rounded_convert a f g Down ≡ exact_convert a f g }
/// ensures exact { (a : ℤ) (f g : ℕ) (r : Rounding) → f ≤ g
///     → rounded_convert a f g r ≡ a *ℤ pos (2 ^ (g - f)) }
/// ensures back { (a : ℤ) (f g : ℕ) (r s : Rounding) → f ≤ g
///     → rounded_convert (rounded_convert a f g r) g f s ≡ a }
/// ```
///
/// Definitions: [`exact_convert`], [`rounded_convert`].
///
/// [`exact_convert`]: crate::definitions::convert_convert
/// [`rounded_convert`]: crate::definitions::convert_convert
pub fn convert_law() {}

/// A conversion preserves the order of numbers, with any rounding.
///
/// # Proved
///
/// ```text
/// ensures { (a b : ℤ) (f g : ℕ) (r : Rounding) → a ≤ℤ b
///     → rounded_convert a f g r ≤ℤ rounded_convert b f g r }
/// ```
///
/// Definitions: [`rounded_convert`].
///
/// [`rounded_convert`]: crate::definitions::convert_convert
pub fn order_law() {}

/// A number of n bits, of which f are fraction bits, fits a format of m bits, of which g are fraction bits, if that
/// has at least as many integer bits and at least as many fraction bits. An unsigned number fits a signed format with
/// one more integer bit.
///
/// # Proved
///
/// ```text
/// ensures same_sign { (s : Bool) (n m f g : ℕ) (a : ℤ) (r : Rounding) → 0 < n → f ≤ g
///     → n + g ≤ m + f → InRange s n a → InRange s m (rounded_convert a f g r) }
/// ensures unsigned { (n m f g : ℕ) (a : ℤ) (r : Rounding) → f ≤ g
///     → n + g < m + f → InRange false n a → InRange true m (rounded_convert a f g r) }
/// ```
///
/// Definitions: [`InRange`], [`rounded_convert`].
///
/// [`InRange`]: crate::definitions::word_format
/// [`rounded_convert`]: crate::definitions::convert_convert
pub fn wider_law() {}

/// The floor plus the fractional part is the number. The fractional part is at least 0 and less than 1.
///
/// # Proved
///
/// ```text
/// ensures sum { (a : ℤ) (f : ℕ) → exact_floor a f +ℤ exact_frac a f ≡ a }
/// ensures part { (a : ℤ) (f : ℕ)
///     → (pos 0 ≤ℤ exact_frac a f) × (exact_frac a f <ℤ pos (2 ^ f)) }
/// ```
///
/// Definitions: [`exact_floor`], [`exact_frac`].
///
/// [`exact_floor`]: crate::definitions::convert_whole_number
/// [`exact_frac`]: crate::definitions::convert_whole_number
pub fn parts_law() {}

/// The floor is less than 1 below the number, the ceiling less than 1 above it, and the rounded number at most 1/2
/// away. If it is 1/2 away, it is further from 0.
///
/// # Proved
///
/// ```text
/// ensures floor { (a : ℤ) (f : ℕ) → (exact_floor a f ≤ℤ a) × (a <ℤ (exact_floor a f +ℤ pos (2 ^ f))) }
/// ensures ceil { (a : ℤ) (f : ℕ) → (a ≤ℤ exact_ceil a f) × (exact_ceil a f <ℤ (a +ℤ pos (2 ^ f))) }
/// ensures round { (a : ℤ) (f : ℕ) → 2 * nat_abs (a -ℤ exact_round a f) ≤ 2 ^ f }
/// ensures tie { (a : ℤ) (f : ℕ) → 2 * nat_abs (a -ℤ exact_round a f) ≡ 2 ^ f
///     → nat_abs a < nat_abs (exact_round a f) }
/// ```
///
/// Definitions: [`exact_ceil`], [`exact_floor`], [`exact_round`].
///
/// [`exact_ceil`]: crate::definitions::convert_whole_number
/// [`exact_floor`]: crate::definitions::convert_whole_number
/// [`exact_round`]: crate::definitions::convert_whole_number
pub fn whole_law() {}
