// Made by `make package` of crates/fixed_logs/specs/Logarithm.antt: changes go there.

//! Logarithms, rounded down.
//!
//! From `crates/fixed_logs/specs/Logarithm.antt`:
//!
//! ```text
//! -- k is the logarithm of a / 2 ^ f to the base b: b ^ k ≤ a / 2 ^ f < b ^ (k + 1), in whole numbers
//! abbrev pub IsLog : ℕ → ℕ → ℕ → ℤ → Type 0
//! IsLog a f b (pos k) = (b ^ k * 2 ^ f ≤ a) × (a < b ^ (k + 1) * 2 ^ f)
//! IsLog a f b (negsuc j) = (2 ^ f ≤ a * b ^ (j + 1)) × (a * b ^ j < 2 ^ f)
//!
//! -- how often n can be halved, at most `most` times, before it is below 2
//! abbrev pub halvings : ℕ → ℕ → ℕ
//! halvings zero n = 0
//! halvings (suc most) n = if nat_lt n 2 then 0 else halvings most (n / 2) + 1
//!
//! -- the logarithm of n to the base 2
//! unfoldable pub log2 : ℕ → ℕ
//! log2 n = halvings n n
//! ```
