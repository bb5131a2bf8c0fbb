// Made by `make package` of crates/fixed_kernel/specs/RowLaws.antt: changes go there.

//! Words in which the laws over the rows are stated.
//!
//! From `crates/fixed_kernel/specs/RowLaws.antt`:
//!
//! ```text
//! -- x does not fit
//! abbrev pub Misses : Bool → ℕ → ℤ → Type 0
//! Misses signed n x = fits signed n x ≡ false
//!
//! -- the row is nothing exactly where d is 0, and elsewhere the number x
//! abbrev pub IsOffZero : ℤ → ℤ → Option ℤ → Type 0
//! IsOffZero d x row = ((row ≡ None) ↔ (d ≡ pos 0)) × (d ≢ pos 0 → row ≡ Some x)
//!
//! -- the row is nothing exactly where a is below 0, and elsewhere the number x
//! abbrev pub IsFromZero : ℤ → ℤ → Option ℤ → Type 0
//! IsFromZero a x row = ((row ≡ None) ↔ (a <ℤ pos 0)) × (pos 0 ≤ℤ a → row ≡ Some x)
//!
//! -- m is the first multiple of b that is met from a in the direction of b
//! pub record IsNextMultiple (a b m : ℤ) : Type 0 where
//!   pub multiple : (k : ℤ) × (m ≡ k *ℤ b)
//!   pub above : pos 0 <ℤ b → (a ≤ℤ m) × (m <ℤ (a +ℤ b))
//!   pub below : b <ℤ pos 0 → ((a +ℤ b) <ℤ m) × (m ≤ℤ a)
//!
//! -- p is the least power of two that is at least a
//! pub record IsNextPower (a p : ℤ) : Type 0 where
//!   pub power : (j : ℕ) × (p ≡ pos (2 ^ j))
//!   pub at_least : a ≤ℤ p
//!   pub least : (i : ℕ) → a ≤ℤ pos (2 ^ i) → p ≤ℤ pos (2 ^ i)
//! ```
