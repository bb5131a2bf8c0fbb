// Made by `make package` of crates/fixed_filter/specs/Text.antt: changes go there.

//! What a script of filters can say, with numbers of any size, and the bytes that say it.
//!
//! From `crates/fixed_filter/specs/Text.antt`:
//!
//! ```text
//! -- a word, and the fractions of outputs, taps and samples
//! pub record FilterHeader : Type 0 where
//!   pub word : WordName
//!   pub out : ℕ
//!   pub coef : ℕ
//!   pub sample : ℕ
//!
//! -- the taps of one more channel, of which there is at least one; or a channel and its sample
//! pub data FilterLine : Type 0 where
//!   Taps : ℤ → List ℤ → FilterLine
//!   Sample : ℕ → ℤ → FilterLine
//!
//! abbrev pub header_tokens : FilterHeader → List (List ℕ)
//! header_tokens h = codes "filter" ∷ word_name h.word ∷ natural_text h.out ∷ natural_text h.coef ∷ natural_text h.sample ∷ []
//!
//! abbrev pub line_tokens : FilterLine → List (List ℕ)
//! line_tokens (Taps c cs) = codes "taps" ∷ map whole_text (c ∷ cs)
//! line_tokens (Sample channel x) = numbered_text 99 channel ∷ whole_text x ∷ []
//!
//! abbrev pub header_text : FilterHeader → List ℕ
//! header_text header = spaced (header_tokens header)
//!
//! abbrev pub line_text : FilterLine → List ℕ
//! line_text line = spaced (line_tokens line)
//! ```
