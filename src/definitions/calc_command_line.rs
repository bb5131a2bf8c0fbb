// Made by `make package` of crates/fixed_calc/specs/CommandLine.antt: changes go there.

//! The words of a command line.
//!
//! From `crates/fixed_calc/specs/CommandLine.antt`:
//!
//! ```text
//! -- a demonstration has at most this many lines
//! abbrev pub most_lines : ℕ
//! most_lines = 1000000
//!
//! -- the words are `demo` and the decimal of n, which is from 1 to 1,000,000
//! pub record IsDemo (words : List (String Global)) (n : ℕ) : Type 0 where
//!   pub texts : map string_bytes words ≡ codes "demo" ∷ natural_text n ∷ []
//!   pub some : 1 ≤ n
//!   pub most : n ≤ most_lines
//!
//! -- there are words, and they are not `demo N`
//! abbrev pub IsNoCommand : List (String Global) → Type 0
//! IsNoCommand words = (words ≢ []) × ((n : ℕ) → IsDemo words n → ⊥)
//! ```
