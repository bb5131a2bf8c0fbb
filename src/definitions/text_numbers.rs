// Made by `make package` of crates/fixed_text/specs/Numbers.antt: changes go there.

//! The number whose decimal a token is, if there is one.
//!
//! From `crates/fixed_text/specs/Numbers.antt`:
//!
//! ```text
//! unfoldable pub natural_in : List ℕ → Option ℕ
//! natural_in token = if is_decimal token then Some (digits_value 10 token) else None
//!
//! -- the natural number after a letter
//! unfoldable pub numbered_in : ℕ → List ℕ → Option ℕ
//! numbered_in letter [] = None
//! numbered_in letter (c ∷ cs) = if c == letter then natural_in cs else None
//!
//! -- no minus precedes 0
//! abbrev pub signed_by : Bool → Option ℕ → Option ℤ
//! signed_by minus None = None
//! signed_by minus (Some n) = if minus && n == 0 then None else Some (with_sign minus n)
//!
//! unfoldable pub whole_in : List ℕ → Option ℤ
//! whole_in token = signed_by (has_minus token) (natural_in (without_minus token))
//!
//! -- the number of the remaining tokens, if they are one decimal
//! unfoldable pub only_number : List (List ℕ) → Option ℤ
//! only_number ts = do
//!   x ← next_by whole_in ts
//!   at_end x.1 x.0
//!
//! -- the numbers of the tokens, if each one is a decimal
//! abbrev pub before_others : Option ℤ → Option (List ℤ) → Option (List ℤ)
//! before_others None others = None
//! before_others (Some x) None = None
//! before_others (Some x) (Some xs) = Some (x ∷ xs)
//!
//! abbrev pub wholes_in : List (List ℕ) → Option (List ℤ)
//! wholes_in [] = Some []
//! wholes_in (token ∷ rest) = before_others (whole_in token) (wholes_in rest)
//! ```
