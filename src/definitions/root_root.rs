// Made by `make package` of crates/fixed_root/specs/Root.antt: changes go there.

//! Square roots of numbers with f fractional bits, rounded down.
//!
//! From `crates/fixed_root/specs/Root.antt`:
//!
//! ```text
//! -- r is the root of a with f fractional bits
//! pub record IsRoot (a : ℤ) (f : ℕ) (r : ℤ) : Type 0 where
//!   pub from_zero : pos 0 ≤ℤ r
//!   pub below : (r *ℤ r) ≤ℤ (a *ℤ pos (2 ^ f))
//!   pub above : (a *ℤ pos (2 ^ f)) <ℤ ((r +ℤ pos 1) *ℤ (r +ℤ pos 1))
//!
//! -- q or q + 1: the greater whose square is at most x, where the square of q is
//! abbrev pub next_root : ℕ → ℕ → ℕ
//! next_root x q = if nat_lt x ((q + 1) * (q + 1)) then q else q + 1
//!
//! -- the root of an x below 4 ^ k: twice the root of a quarter of x, or one more
//! unfoldable pub root_below : ℕ → ℕ → ℕ
//! root_below zero x = 0
//! root_below (suc k) zero = 0
//! root_below (suc k) (suc m) = next_root (suc m) (2 * root_below k (suc m / 4))
//!
//! -- the root of a with f fractional bits; 0 where a is below 0
//! unfoldable pub root_of : ℤ → ℕ → ℤ
//! root_of (pos a) f = pos (root_below (a * 2 ^ f) (a * 2 ^ f))
//! root_of (negsuc a) f = pos 0
//! ```
