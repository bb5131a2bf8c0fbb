// Made by `make package` of crates/fixed_script/specs/Headers.antt: changes go there.

//! A header as the code represents it.
//!
//! From `crates/fixed_script/specs/Headers.antt`:
//!
//! ```text
//! -- a word, and the fractions in order, capped
//! pub record CappedHeader : Type 0 where
//!   pub word : WordName
//!   pub fractions : List ℕ
//!
//! -- the capped form of a header
//! abbrev pub capped_header : ScriptHeader → CappedHeader
//! capped_header h = record { word = h.word; fractions = map cap (h.first ∷ h.others) }
//!
//! -- the capped numbers with these decimals
//! abbrev pub capped_fractions : List (List ℕ) → List ℕ
//! capped_fractions tokens = map (λ t. cap (digits_value 10 t)) tokens
//!
//! abbrev pub all_decimal : List (List ℕ) → Bool
//! all_decimal tokens = list_all is_decimal tokens
//! ```
