// Made by `make package` of crates/fixed_turns/specs/Radians.antt: changes go there.

//! Sines and cosines of angles in radians, rounded to the nearest up to a small part.
//!
//! From `crates/fixed_turns/specs/Radians.antt`:
//!
//! ```text
//! -- a number of units of 10^-39 2^-f / 2, as a fraction
//! abbrev pub parts : ℕ → ℕ → Fraction
//! parts rest f = record { num = rest; den = 2 * 10 ^ 39 * 2 ^ f }
//!
//! -- a 2^-f radians are whole turns, q quarters of p 10^-39 / 2 radians each, and a rest of at most 1, which may lie below 0
//! pub record IsReduced (p : ℕ) (a : ℤ) (f : ℕ) (turns : ℤ) (q : ℕ) (below : Bool) (rest : ℕ) : Type 0 where
//!   pub is : pos (2 * 10 ^ 39) *ℤ a ≡ (pos 4 *ℤ turns +ℤ pos q) *ℤ pos (p * 2 ^ f) +ℤ with_sign below rest
//!   pub quarters : q ≤ 3
//!   pub small : rest ≤ 2 * 10 ^ 39 * 2 ^ f
//!
//! -- r is the sine of c quarters more, where p is pi
//! pub record IsSineWith (p k c : ℕ) (a : ℤ) (f : ℕ) (r : ℤ) : Type 0 where
//!   pub turns : ℤ
//!   pub q : ℕ
//!   pub below : Bool
//!   pub rest : ℕ
//!   pub angle : IsReduced p a f turns q below rest
//!   pub sine : IsSineBy k (q + c) below (parts rest f) f r
//!
//! -- r units of 2^-f are the sine of a 2^-f radians, with both numbers beside pi
//! pub record IsRadianSine (k : ℕ) (a : ℤ) (f : ℕ) (r : ℤ) : Type 0 where
//!   pub low : IsSineWith pi k 0 a f r
//!   pub high : IsSineWith (pi + 1) k 0 a f r
//!
//! -- the cosine is the sine of a quarter turn more
//! pub record IsRadianCosine (k : ℕ) (a : ℤ) (f : ℕ) (r : ℤ) : Type 0 where
//!   pub low : IsSineWith pi k 1 a f r
//!   pub high : IsSineWith (pi + 1) k 1 a f r
//! ```
