// Made by `make package` of crates/fixed_text/specs/Texts.antt: changes go there.

//! Texts and their readers.
//!
//! From `crates/fixed_text/specs/Texts.antt`:
//!
//! ```text
//! -- tokens, joined by single spaces
//! abbrev pub spaced : List (List ℕ) → List ℕ
//! spaced tokens = join_with_byte 32 tokens
//!
//! abbrev pub no_space : List ℕ → Bool
//! no_space token = list_all (λ b. not (b == 32)) token
//!
//! -- a natural number after a letter
//! abbrev pub numbered_text : ℕ → ℕ → List ℕ
//! numbered_text letter n = letter ∷ natural_text n
//!
//! -- reading a piece returns the value whose text the piece is, and nothing else
//! pub record IsReader {A : Type 0} (text : A → List ℕ) (read : List ℕ → Option A) : Type 0 where
//!   pub again : (x : A) → read (text x) ≡ Some x
//!   pub only : (piece : List ℕ) (x : A) → read piece ≡ Some x → text x ≡ piece
//! ```
