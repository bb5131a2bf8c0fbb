// Made by `make package` of crates/fixed_digits/specs/Numerals.antt: changes go there.

//! The natural number whose decimal some bytes are, capped: 2 ^ 64 stands for each number of 2 ^ 64 or more.
//!
//! From `crates/fixed_digits/specs/Numerals.antt`:
//!
//! ```text
//! abbrev pub cap : ℕ → ℕ
//! cap n = min n (2 ^ 64)
//!
//! -- digits alone, at least one, and no leading 0 before another
//! abbrev pub is_decimal : List ℕ → Bool
//! is_decimal [] = false
//! is_decimal (c ∷ cs) = (not (c == 48) || length cs == 0) && list_all is_ascii_digit (c ∷ cs)
//!
//! unfoldable pub natural_at : List ℕ → Option ℕ
//! natural_at token = if is_decimal token then Some (cap (digits_value 10 token)) else None
//!
//! -- whether there is a minus at the front, and what follows it
//! abbrev pub has_minus : List ℕ → Bool
//! has_minus token = slice_index token 0 == 45
//!
//! abbrev pub without_minus : List ℕ → List ℕ
//! without_minus token = if has_minus token then drop 1 token else token
//! ```
