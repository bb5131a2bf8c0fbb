// Made by `make package` of crates/fixed_word/specs/Policies.antt: changes go there.

//! What each policy makes of a row: of a number without a bound, or of nothing where the row is undefined.
//! Under the strict policy a row stays as it is, and is used only where its number fits.
//!
//! From `crates/fixed_word/specs/Policies.antt`:
//!
//! ```text
//! -- the number where there is one that fits, and otherwise nothing
//! abbrev pub checked : Bool → ℕ → Option ℤ → Option ℤ
//! checked signed n None = None
//! checked signed n (Some x) = if fits signed n x then Some x else None
//!
//! -- the nearest number that fits
//! abbrev pub saturating : Bool → ℕ → Option ℤ → Option ℤ
//! saturating signed n row = option_map (clamp signed n) row
//!
//! -- the number that fits and differs by a multiple of 2 ^ n
//! abbrev pub wrapping : Bool → ℕ → Option ℤ → Option ℤ
//! wrapping signed n row = option_map (wrap signed n) row
//!
//! -- the same, and the verdict "the number does not fit"
//! abbrev pub overflowing : Bool → ℕ → Option ℤ → Option (ℤ × Bool)
//! overflowing signed n row = option_map (λ x. (wrap signed n x, not (fits signed n x))) row
//! ```
