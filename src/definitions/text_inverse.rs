// Made by `make package` of crates/fixed_text/specs/Inverse.antt: changes go there.

//! The value whose text some bytes are: the only one that can have it, if it has.
//!
//! From `crates/fixed_text/specs/Inverse.antt`:
//!
//! ```text
//! abbrev pub token : List (List ℕ) → ℕ → List ℕ
//! token tokens i = slice_index_or tokens i []
//!
//! -- the only number that can have this decimal; or this decimal after a letter
//! abbrev pub whole_value : List ℕ → ℤ
//! whole_value token = if has_minus token then neg_ℤ (pos (digits_value 10 (drop 1 token))) else pos (digits_value 10 token)
//!
//! abbrev pub numbered_value : List ℕ → ℕ
//! numbered_value token = digits_value 10 (drop 1 token)
//!
//! -- what was found, if its text is these bytes again
//! abbrev pub if_its_text : {A : Type 0} → (A → List ℕ) → List ℕ → Option A → Option A
//! if_its_text text piece found = option_and_then (λ x. if bytes_eq (text x) piece then Some x else None) found
//! ```
