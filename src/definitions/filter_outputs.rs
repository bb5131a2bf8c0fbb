// Made by `make package` of crates/fixed_filter/specs/Outputs.antt: changes go there.

//! What a bank replies to samples, each with its channel, in words of the samples alone.
//!
//! From `crates/fixed_filter/specs/Outputs.antt`:
//!
//! ```text
//! -- what stands under a channel's number, in order
//! abbrev pub own : {X : Type 0} → ℕ → List (ℕ × X) → List X
//! own channel [] = []
//! own channel (e ∷ es) = if e.0 == channel then e.1 ∷ own channel es else own channel es
//!
//! -- the k newest of these samples, which stand with the newest first, then zeros
//! abbrev pub past_of : ℕ → List ℤ → List ℤ
//! past_of k samples = take k (samples ++ replicate k (pos 0))
//!
//! -- what a channel replies to the first of these samples, which stand with the newest first
//! abbrev pub reply_after : Bool → ℕ → ℤ → List ℤ → List ℤ → Reply ℤ
//! reply_after signed n s taps samples = filter_reply signed n s (zip taps (past_of (length taps) samples))
//!
//! -- the taps of a channel
//! abbrev pub taps_at : List (List ℤ) → ℕ → List ℤ
//! taps_at bank channel = slice_index_or bank channel []
//!
//! -- the replies to the samples to come, each under its channel's number; those before stand with the newest first
//! abbrev pub replies : Bool → ℕ → ℤ → List (List ℤ) → List (ℕ × ℤ) → List (ℕ × ℤ) → List (ℕ × Reply ℤ)
//! replies signed n s bank before [] = []
//! replies signed n s bank before (e ∷ es) =
//!     (e.0, reply_after signed n s (taps_at bank e.0) (own e.0 (e ∷ before))) ∷ replies signed n s bank (e ∷ before) es
//!
//! -- the samples of a bank of one channel
//! abbrev pub alone : List ℤ → List (ℕ × ℤ)
//! alone samples = map (λ x. (0, x)) samples
//! ```
