// Made by `make package` of crates/fixed_text/specs/Tokens.antt: changes go there.

//! The tokens of a piece, and how they are taken from the front.
//!
//! From `crates/fixed_text/specs/Tokens.antt`:
//!
//! ```text
//! infixl 10 ◌>>=◌
//! abbrev pub ◌>>=◌ : {A B : Type 0} → Option A → (A → Option B) → Option B
//! (Some x) >>= f = f x
//! None >>= f = None
//!
//! -- the parts between the spaces
//! abbrev pub tokens_of : List ℕ → List (List ℕ)
//! tokens_of bytes = slice_split (λ b. b == 32) bytes
//!
//! abbrev pub tokens_left : Option (Bor (List ℕ)) → List (List ℕ)
//! tokens_left None = []
//! tokens_left (Some rest) = tokens_of rest.now
//!
//! -- what a step that takes tokens found, and the remaining tokens
//! abbrev pub took : {A : Type 0} → Option A → List (List ℕ) → Option (A × List (List ℕ))
//! took found left = option_map (λ x. (x, left)) found
//!
//! -- the first token, read
//! abbrev pub next_by : {A : Type 0} → (List ℕ → Option A) → List (List ℕ) → Option (A × List (List ℕ))
//! next_by read [] = None
//! next_by read (token ∷ rest) = took (read token) rest
//!
//! -- the value, if no token remains
//! abbrev pub at_end : {A : Type 0} → List (List ℕ) → A → Option A
//! at_end [] x = Some x
//! at_end (token ∷ rest) x = None
//! ```
