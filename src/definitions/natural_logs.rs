// Made by `make package` of crates/fixed_natural/specs/Logs.antt: changes go there.

//! Logarithms to the bases e and 10, rounded down up to a small part of a unit.
//!
//! From `crates/fixed_natural/specs/Logs.antt`:
//!
//! ```text
//! -- r is the logarithm of a number of a units of 2^-f to the base b = 2^(p / q), in such units, rounded down up to 2^-k of a
//! -- unit: b^(r - 2^-k) ≤ (a / 2^f)^(2^f) < b^(r + 1). By powers of 2, and r as a difference:
//! pub record IsLogTo (p q a f k : ℕ) (r : ℤ) : Type 0 where
//!   pub up : ℕ
//!   pub down : ℕ
//!   pub value : r ≡ pos up -ℤ pos down
//!   pub below : 2 ^ (up * 2 ^ k * p + f * 2 ^ f * q * 2 ^ k) ≤ a ^ (2 ^ f * q * 2 ^ k) * 2 ^ ((down * 2 ^ k + 1) * p)
//!   pub above : a ^ (2 ^ f * q) * 2 ^ (down * p) < 2 ^ ((up + 1) * p + f * 2 ^ f * q)
//!
//! -- on words of n bits k is this
//! abbrev pub log_room : ℕ → ℕ
//! log_room n = if nat_le n 32 then 24 else 32
//!
//! -- so for two bases, with exponents of p and p + 1 decimals, and for each base between them
//! abbrev pub IsLogNear : ℕ → ℕ → ℤ → ℕ → ℤ → Type 0
//! IsLogNear p k a f r = IsLogTo p decimals (unsigned_abs a) f k r × IsLogTo (p + 1) decimals (unsigned_abs a) f k r
//!
//! -- r is the natural logarithm, or that to the base 10, of a units
//! abbrev pub IsLn : ℕ → ℤ → ℕ → ℤ → Type 0
//! IsLn k a f r = IsLogNear log2_e k a f r
//!
//! abbrev pub IsLog10 : ℕ → ℤ → ℕ → ℤ → Type 0
//! IsLog10 k a f r = IsLogNear log2_10 k a f r
//! ```
