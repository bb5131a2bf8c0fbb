// Made by `make package` of crates/fixed_elementary/specs/Log2.antt: changes go there.

//! Logarithms to the base 2, rounded down up to a small part of a unit.
//!
//! From `crates/fixed_elementary/specs/Log2.antt`:
//!
//! ```text
//! -- s is at most the logarithm of a to the base 2, in units of 2^-g, which is less than s + 1 + 2^-k: by powers,
//! -- 2^s ≤ a^(2^g), and a^(2^g 2^k) < 2^((s + 1) 2^k + 1)
//! pub record IsLog2 (a g k s : ℕ) : Type 0 where
//!   pub below : 2 ^ s ≤ a ^ 2 ^ g
//!   pub above : a ^ (2 ^ g * 2 ^ k) < 2 ^ ((s + 1) * 2 ^ k + 1)
//!
//! -- on words of n bits, f + k is at most this
//! abbrev pub log2_room : ℕ → ℕ
//! log2_room n = if nat_le n 32 then 62 else 126
//!
//! -- r is the logarithm of a units to the base 2, both in units of 2^-f; that of a power of two is exact
//! pub record IsLog2Of (room : ℕ) (a : ℤ) (f : ℕ) (r : ℤ) : Type 0 where
//!   pub units : ℕ
//!   pub value : r ≡ pos units -ℤ pos (f * 2 ^ f)
//!   pub near : (k : ℕ) → f + k ≤ room → IsLog2 (unsigned_abs a) f k units
//!   pub exact : (j : ℕ) → a ≡ pos (2 ^ j) → units ≡ j * 2 ^ f
//! ```
