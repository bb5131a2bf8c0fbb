// Made by `make package` of crates/fixed_natural/specs/Pows.antt: changes go there.

//! Powers of numbers above 0, rounded down up to a small part of themselves.
//!
//! From `crates/fixed_natural/specs/Pows.antt`:
//!
//! ```text
//! -- r is the power of a units to the exponent b units, all of 2^-f, rounded down up to a factor of 2^(2^-k):
//! -- r ≤ (a / 2^f)^(b / 2^f) 2^f 2^(2^-k), and (a / 2^f)^(b / 2^f) 2^f < r + 1. Raised to 2^f, and b as a difference:
//! pub record IsPowTo (a : ℕ) (b : ℤ) (f k r : ℕ) : Type 0 where
//!   pub up : ℕ
//!   pub down : ℕ
//!   pub value : b ≡ pos up -ℤ pos down
//!   pub below : r ^ (2 ^ f * 2 ^ k) * (a ^ down * 2 ^ (f * up)) ^ 2 ^ k ≤ (a ^ up * 2 ^ (f * down + f * 2 ^ f)) ^ 2 ^ k * 2 ^ 2 ^ f
//!   pub above : a ^ up * 2 ^ (f * down + f * 2 ^ f) < (r + 1) ^ 2 ^ f * (a ^ down * 2 ^ (f * up))
//!
//! -- k is this
//! abbrev pub pow_room : ℕ
//! pow_room = 55
//!
//! abbrev pub IsPow : ℤ → ℤ → ℕ → ℤ → Type 0
//! IsPow a b f r = (n : ℕ) × (r ≡ pos n) × IsPowTo (unsigned_abs a) b f pow_room n
//! ```
