// Made by `make package` of crates/fixed_filter/specs/Banks.antt: changes go there.

//! What contracts see of a bank of filters.
//!
//! From `crates/fixed_filter/specs/Banks.antt`:
//!
//! ```text
//! -- taps, and as many past samples, the newest first
//! pub record Filter (T : Type 0) : Type 0 where
//!   pub taps : List T
//!   pub past : List T
//!
//! -- channels of one shape
//! pub record Filters (T : Type 0) : Type 0 where
//!   pub shape : Shape
//!   pub channels : List (Filter T)
//!
//! -- every fraction is at most the width
//! abbrev pub IsShape : ℕ → Shape → Type 0
//! IsShape n shape = (shape.out_frac ≤ n) × (shape.coef_frac ≤ n) × (shape.sample_frac ≤ n)
//!
//! -- the shape with these fractions
//! abbrev pub shape_with : ℕ → ℕ → ℕ → Shape
//! shape_with out coef sample = record { out_frac = out; coef_frac = coef; sample_frac = sample }
//!
//! -- by how many places a product moves down
//! abbrev pub places_of : Shape → ℤ
//! places_of shape = places shape.out_frac shape.coef_frac shape.sample_frac
//!
//! -- the sample in front, and without the oldest
//! abbrev pub with_sample : {T : Type 0} → T → Filter T → Filter T
//! with_sample sample filter = record { taps = filter.taps; past = sample ∷ take (length filter.past - 1) filter.past }
//!
//! -- what a filter answers
//! abbrev pub reply_of : {T : Type 0} → (T → ℤ) → Bool → ℕ → Shape → Filter T → Reply ℤ
//! reply_of value signed n shape filter = filter_reply signed n (places_of shape) (pairs value value filter.taps filter.past)
//!
//! -- the list with one change, at a place
//! abbrev pub change_at : {X : Type 0} → ℕ → (X → X) → List X → List X
//! change_at i change [] = []
//! change_at zero change (x ∷ xs) = change x ∷ xs
//! change_at (suc i) change (x ∷ xs) = x ∷ change_at i change xs
//!
//! -- the channel of these taps, before its first sample
//! abbrev pub fresh : {T : Type 0} → T → List T → Filter T
//! fresh zero_word taps = record { taps = taps; past = replicate (length taps) zero_word }
//!
//! -- the filter of a channel
//! abbrev pub filter_at : {T : Type 0} → Filters T → ℕ → Filter T
//! filter_at bank channel = slice_index_or bank.channels channel (record { taps = []; past = [] })
//!
//! -- a bank with one more channel, and one whose channel takes a sample
//! abbrev pub with_channel : {T : Type 0} → Filter T → Filters T → Filters T
//! with_channel filter bank = record { shape = bank.shape; channels = bank.channels ++ filter ∷ [] }
//!
//! abbrev pub after_sample : {T : Type 0} → ℕ → T → Filters T → Filters T
//! after_sample channel sample bank = record { shape = bank.shape; channels = change_at channel (with_sample sample) bank.channels }
//! ```
