// Made by `make package` of crates/fixed_word/specs/Format.antt: changes go there.

//! The numbers that a word of n bits holds: its range, and what is left of a number in it.
//! A format is its sign (true where it is signed) and its width n.
//!
//! From `crates/fixed_word/specs/Format.antt`:
//!
//! ```text
//! -- the widths
//! abbrev pub IsWidth : ℕ → Type 0
//! IsWidth n = (n ≡ 8) ⊎ ((n ≡ 16) ⊎ ((n ≡ 32) ⊎ (n ≡ 64)))
//!
//! -- the least and the greatest number that fits
//! abbrev pub lowest : Bool → ℕ → ℤ
//! lowest true n = neg_ℤ (pos (2 ^ (n - 1)))
//! lowest false n = pos 0
//!
//! abbrev pub highest : Bool → ℕ → ℤ
//! highest true n = pos (2 ^ (n - 1) - 1)
//! highest false n = pos (2 ^ n - 1)
//!
//! -- x fits: as a fact, and as a test
//! abbrev pub InRange : Bool → ℕ → ℤ → Type 0
//! InRange signed n x = (lowest signed n ≤ℤ x) × (x ≤ℤ highest signed n)
//!
//! abbrev pub fits : Bool → ℕ → ℤ → Bool
//! fits signed n x = int_le (lowest signed n) x && int_le x (highest signed n)
//!
//! -- x and y differ by a multiple of m
//! abbrev pub Congruent : ℕ → ℤ → ℤ → Type 0
//! Congruent m x y = (k : ℤ) × (x ≡ y +ℤ k *ℤ pos m)
//!
//! -- the remainder of x by m, from 0 to m - 1
//! abbrev pub modulo : ℤ → ℕ → ℕ
//! modulo (pos a) m = a % m
//! modulo (negsuc a) m = m - 1 - a % m
//!
//! -- the number that fits and differs from x by a multiple of 2 ^ n
//! unfoldable pub wrap : Bool → ℕ → ℤ → ℤ
//! wrap signed n x = lowest signed n +ℤ pos (modulo (x -ℤ lowest signed n) (2 ^ n))
//!
//! -- the number that fits and is nearest to x
//! abbrev pub clamp : Bool → ℕ → ℤ → ℤ
//! clamp signed n x = if int_lt x (lowest signed n) then lowest signed n else (if int_lt (highest signed n) x then highest signed n else x)
//!
//! -- a magnitude, or minus it
//! abbrev pub with_sign : Bool → ℕ → ℤ
//! with_sign false m = pos m
//! with_sign true m = neg_ℤ (pos m)
//! ```
