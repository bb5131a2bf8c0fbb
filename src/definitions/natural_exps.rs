// Made by `make package` of crates/fixed_natural/specs/Exps.antt: changes go there.

//! Powers of e, rounded down up to a small part of themselves.
//!
//! From `crates/fixed_natural/specs/Exps.antt`:
//!
//! ```text
//! -- r is b = 2^(p / q) to the power of a units of 2^-f, in such units, rounded down up to a factor of 2^(2^-k):
//! -- r ≤ b^(a / 2^f) 2^f 2^(2^-k), and b^(a / 2^f) 2^f < r + 1. By powers of 2, and a as a difference:
//! pub record IsExpTo (p q : ℕ) (a : ℤ) (f k r : ℕ) : Type 0 where
//!   pub up : ℕ
//!   pub down : ℕ
//!   pub value : a ≡ pos up -ℤ pos down
//!   pub below : r ^ (2 ^ f * q * 2 ^ k) * 2 ^ (down * p * 2 ^ k) ≤ 2 ^ ((up * p + f * 2 ^ f * q) * 2 ^ k + 2 ^ f * q)
//!   pub above : 2 ^ (up * p + f * 2 ^ f * q) < (r + 1) ^ (2 ^ f * q) * 2 ^ (down * p)
//!
//! -- k is this
//! abbrev pub exp_room : ℕ
//! exp_room = 61
//!
//! -- r is e to the power of a units, as two bases show that enclose e; exactly so to the power of 0
//! pub record IsExp (a : ℤ) (f : ℕ) (r : ℤ) : Type 0 where
//!   pub units : ℕ
//!   pub value : r ≡ pos units
//!   pub low : IsExpTo log2_e decimals a f exp_room units
//!   pub high : IsExpTo (log2_e + 1) decimals a f exp_room units
//!   pub exact : a ≡ pos 0 → units ≡ 2 ^ f
//! ```
