// Made by `make package` of crates/fixed_filter/specs/Scripts.antt: changes go there.

//! A script of channels and samples, and what its samples print, in words of the replies to them.
//!
//! From `crates/fixed_filter/specs/Scripts.antt`:
//!
//! ```text
//! -- a newline after each text
//! abbrev pub ended_texts : List (List ℕ) → List ℕ
//! ended_texts [] = []
//! ended_texts (text ∷ rest) = text ++ 10 ∷ ended_texts rest
//!
//! abbrev pub script_text : FilterHeader → List FilterLine → List ℕ
//! script_text header lines = ended_texts (header_text header ∷ map line_text lines)
//!
//! -- channels, each by its first tap and the others, and samples, each with its channel
//! abbrev pub channels_and_samples : List (ℤ × List ℤ) → List (ℕ × ℤ) → List FilterLine
//! channels_and_samples channels samples = map (λ t. Taps t.0 t.1) channels ++ map (λ e. Sample e.0 e.1) samples
//!
//! abbrev pub taps_of_channels : List (ℤ × List ℤ) → List (List ℤ)
//! taps_of_channels channels = map (λ t. t.0 ∷ t.1) channels
//!
//! -- every number fits the word, and every sample has one of so many channels
//! abbrev pub all_fit : Bool → ℕ → List (List ℤ) → Bool
//! all_fit signed n bank = list_all (list_all (fits signed n)) bank
//!
//! abbrev pub are_samples : Bool → ℕ → ℕ → List (ℕ × ℤ) → Bool
//! are_samples signed n channels samples = list_all (λ e. nat_lt e.0 channels && fits signed n e.1) samples
//!
//! -- the texts of replies, each with its channel; those before stand with the newest first
//! abbrev pub reply_texts : List (ℕ × Reply ℤ) → List (ℕ × Reply ℤ) → List ℕ
//! reply_texts before [] = []
//! reply_texts before (r ∷ rs) = reply_text r.0 (length (own r.0 before)) r.1 ++ reply_texts (r ∷ before) rs
//! ```
