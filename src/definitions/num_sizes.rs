// Made by `make package` of crates/fixed_num/specs/Sizes.antt: changes go there.

//! What the calls on a number's size answer.
//!
//! From `crates/fixed_num/specs/Sizes.antt`:
//!
//! ```text
//! -- a number of at least 0 needs at most m bits
//! abbrev pub HasSize : ℤ → ℕ → Type 0
//! HasSize a m = a <ℤ pos (2 ^ m)
//!
//! -- a number needs at most m bits, of which one is for the sign
//! abbrev pub HasSignedSize : ℤ → ℕ → Type 0
//! HasSignedSize a m = (1 ≤ m) × (neg_ℤ (pos (2 ^ (m - 1))) ≤ℤ a) × (a <ℤ pos (2 ^ (m - 1)))
//!
//! -- a is a power of 2
//! abbrev pub IsPower : ℤ → Type 0
//! IsPower a = (j : ℕ) × (a ≡ pos (2 ^ j))
//!
//! -- r is the greatest power of 2 that is at most a, or 0 where a is 0
//! abbrev pub IsHighestOne : ℤ → ℤ → Type 0
//! IsHighestOne a r = ((a ≡ pos 0) × (r ≡ pos 0)) ⊎ ((j : ℕ) × (r ≡ pos (2 ^ j)) × (r ≤ℤ a) × (a <ℤ pos (2 ^ (j + 1))))
//!
//! -- half the sum, rounded down
//! abbrev pub mean_of : ℤ → ℤ → ℤ
//! mean_of a b = floor_quotient (a +ℤ b) 2
//! ```
