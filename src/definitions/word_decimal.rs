// Made by `make package` of crates/fixed_word/specs/Decimal.antt: changes go there.

//! The decimal of a number, without a bound.
//!
//! From `crates/fixed_word/specs/Decimal.antt`:
//!
//! ```text
//! -- `0`, or the digits with no 0 in front
//! unfoldable pub natural_text : ℕ → List ℕ
//! natural_text n = if n == 0 then 48 ∷ [] else map (λ d. 48 + d) (digits_of 10 n)
//!
//! -- a `-` before the decimal of a number below 0
//! abbrev pub whole_text : ℤ → List ℕ
//! whole_text (pos n) = natural_text n
//! whole_text (negsuc n) = 45 ∷ natural_text (suc n)
//! ```
