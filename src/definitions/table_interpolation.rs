// Made by `make package` of crates/fixed_table/specs/Interpolation.antt: changes go there.

//! A function by its values at points that are 2 ^ k units apart, with straight lines between them.
//!
//! From `crates/fixed_table/specs/Interpolation.antt`:
//!
//! ```text
//! -- 2 ^ k times the height of the line from a to b, at part units past a
//! abbrev pub on_line : ℤ → ℤ → ℕ → ℕ → ℤ
//! on_line a b k part = a *ℤ pos (2 ^ k - part) +ℤ b *ℤ pos part
//!
//! -- the value at so many units past the first point: on the line between the points around it, rounded down; past the
//! -- last point, the last value
//! abbrev pub interpolated : ℕ → List ℤ → ℕ → ℤ
//! interpolated k [] units = pos 0
//! interpolated k (a ∷ []) units = a
//! interpolated k (a ∷ (b ∷ rest)) units =
//!     if nat_lt units (2 ^ k) then floor_quotient (on_line a b k units) (2 ^ k) else interpolated k (b ∷ rest) (units - 2 ^ k)
//!
//! -- how far a number lies above 0, if it does
//! abbrev pub above_zero : ℤ → ℕ
//! above_zero (pos n) = n
//! above_zero (negsuc n) = 0
//!
//! -- x lies from the first point to the last, of n points
//! abbrev pub is_between_ends : ℕ → ℕ → ℤ → ℤ → Bool
//! is_between_ends k n first x = int_le first x && int_le x (first +ℤ pos ((n - 1) * 2 ^ k))
//! ```
