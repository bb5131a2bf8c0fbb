// Made by `make package` of crates/fixed_filter/specs/Blocks.antt: changes go there.

//! A filter over a block of samples, which it takes one after another.
//!
//! From `crates/fixed_filter/specs/Blocks.antt`:
//!
//! ```text
//! -- the past after samples: the newest, as many as it had
//! abbrev pub past_after : {X : Type 0} → List X → List X → List X
//! past_after past samples = take (length past) (reverse samples ++ past)
//!
//! -- what taps reply to a past, the newest sample first
//! abbrev pub reply_to : {X Y : Type 0} → (X → ℤ) → (Y → ℤ) → Bool → ℕ → ℤ → List X → List Y → Reply ℤ
//! reply_to tap sample signed n s taps past = filter_reply signed n s (pairs tap sample taps past)
//!
//! -- the reply to the sample at i, where reply is that to a past
//! abbrev pub reply_at : {X : Type 0} → (List X → Reply ℤ) → List X → List X → ℕ → Reply ℤ
//! reply_at reply past samples i = reply (past_after past (take (i + 1) samples))
//!
//! -- the first k outputs are the replies to their samples
//! abbrev pub AreReplies : {X Y : Type 0} → (List X → Reply ℤ) → (Y → ℤ) → List X → List X → List Y → ℕ → Type 0
//! AreReplies reply value past samples outputs k =
//!     (i : ℕ) → i < k → option_map (λ y. Value (value y)) (slice_get outputs i) ≡ Some (reply_at reply past samples i)
//!
//! -- a sample without an output, and the tap whose partial sum does not fit
//! abbrev pub StopsAt : {X : Type 0} → (List X → Reply ℤ) → List X → List X → BlockOverflow → Type 0
//! StopsAt reply past samples stop = (stop.sample < length samples) × (reply_at reply past samples stop.sample ≡ Overflow stop.tap)
//!
//! -- how many outputs a block of n samples has, and how many samples were taken: the one without an output too
//! abbrev pub outputs_of : {U : Type 0} → ℕ → Result U BlockOverflow → ℕ
//! outputs_of n (Ok u) = n
//! outputs_of n (Err stop) = stop.sample
//!
//! abbrev pub taken_of : {U : Type 0} → ℕ → Result U BlockOverflow → ℕ
//! taken_of n (Ok u) = n
//! taken_of n (Err stop) = stop.sample + 1
//! ```
