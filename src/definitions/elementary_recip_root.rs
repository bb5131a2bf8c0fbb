// Made by `make package` of crates/fixed_elementary/specs/RecipRoot.antt: changes go there.

//! One over the square root of a number with f fraction bits, rounded down.
//!
//! From `crates/fixed_elementary/specs/RecipRoot.antt`:
//!
//! ```text
//! -- r is one over the root of a with f fraction bits
//! pub record IsRecipRoot (a : ℤ) (f : ℕ) (r : ℤ) : Type 0 where
//!   pub from_zero : pos 0 ≤ℤ r
//!   pub below : ((r *ℤ r) *ℤ a) ≤ℤ pos (2 ^ (3 * f))
//!   pub above : pos (2 ^ (3 * f)) <ℤ (((r +ℤ pos 1) *ℤ (r +ℤ pos 1)) *ℤ a)
//! ```
