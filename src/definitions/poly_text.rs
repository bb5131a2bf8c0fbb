// Made by `make package` of crates/fixed_poly/specs/Text.antt: changes go there.

//! What a script of polynomials can say, with numbers of any size, and the bytes that say it.
//!
//! From `crates/fixed_poly/specs/Text.antt`:
//!
//! ```text
//! -- a word and a fraction
//! pub record PolyHeader : Type 0 where
//!   pub word : WordName
//!   pub frac : ℕ
//!
//! -- the coefficients, the least first, of which there is at least one; or a number
//! pub data PolyLine : Type 0 where
//!   Coefs : ℤ → List ℤ → PolyLine
//!   At : ℤ → PolyLine
//!
//! abbrev pub header_tokens : PolyHeader → List (List ℕ)
//! header_tokens h = codes "poly" ∷ word_name h.word ∷ natural_text h.frac ∷ []
//!
//! abbrev pub line_tokens : PolyLine → List (List ℕ)
//! line_tokens (Coefs c cs) = codes "coefs" ∷ map whole_text (c ∷ cs)
//! line_tokens (At x) = codes "at" ∷ whole_text x ∷ []
//!
//! abbrev pub header_text : PolyHeader → List ℕ
//! header_text header = spaced (header_tokens header)
//!
//! abbrev pub line_text : PolyLine → List ℕ
//! line_text line = spaced (line_tokens line)
//! ```
