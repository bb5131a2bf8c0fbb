// Made by `make package` of crates/fixed_table/src/laws.rt, which is proved: changes go there.

//! Laws of the definitions. These functions do nothing: the contract of each is the law.

/// At each point, the function has the value of the table.
///
/// # Proved
///
/// ```text
/// ensures { (k i : ℕ) (values : List ℤ) (v : ℤ)
///     → slice_get values i ≡ Some v
///     → interpolated k values (i * 2 ^ k) ≡ v }
/// ```
///
/// Definitions: [`interpolated`].
///
/// [`interpolated`]: crate::definitions::table_interpolation
pub fn points_law() {}

/// Between two points the value lies between their values.
///
/// # Proved
///
/// ```text
/// ensures rising { (k i part : ℕ) (values : List ℤ) (a b : ℤ)
///     → slice_get values i ≡ Some a
///     → slice_get values (i + 1) ≡ Some b
///     → part < 2 ^ k
///     → a ≤ℤ b
///     → (a ≤ℤ interpolated k values (i * 2 ^ k + part)) × (interpolated k values (i * 2 ^ k + part) ≤ℤ b) }
/// ensures falling { (k i part : ℕ) (values : List ℤ) (a b : ℤ)
///     → slice_get values i ≡ Some a
///     → slice_get values (i + 1) ≡ Some b
///     → part < 2 ^ k
///     → b ≤ℤ a
///     → (b ≤ℤ interpolated k values (i * 2 ^ k + part)) × (interpolated k values (i * 2 ^ k + part) ≤ℤ a) }
/// ```
///
/// Definitions: [`interpolated`].
///
/// [`interpolated`]: crate::definitions::table_interpolation
pub fn between_law() {}

/// Between two points the value lies at or below the line, by less than a unit.
///
/// # Proved
///
/// ```text
/// ensures { (k i part : ℕ) (values : List ℤ) (a b : ℤ)
///     → slice_get values i ≡ Some a
///     → slice_get values (i + 1) ≡ Some b
///     → part < 2 ^ k
///     → let v = interpolated k values (i * 2 ^ k + part)
///     in ((v *ℤ pos (2 ^ k)) ≤ℤ on_line a b k part) × (on_line a b k part <ℤ ((v +ℤ pos 1) *ℤ pos (2 ^ k))) }
/// ```
///
/// Definitions: [`interpolated`], [`on_line`].
///
/// [`interpolated`]: crate::definitions::table_interpolation
/// [`on_line`]: crate::definitions::table_interpolation
pub fn rounding_law() {}
