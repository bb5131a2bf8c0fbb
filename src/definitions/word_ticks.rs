// Made by `make package` of crates/fixed_word/specs/Ticks.antt: changes go there.

//! What a ledger's count shows of the steps that were taken.
//!
//! From `crates/fixed_word/specs/Ticks.antt`:
//!
//! ```text
//! -- one tick: the count rises by one, or stays at the last
//! abbrev pub Ticks : ℕ → ℕ → ℕ → Type 0
//! Ticks last before after = (after ≡ before + 1) ⊎ ((before ≡ last) × (after ≡ last))
//!
//! -- the count rises by at most n
//! abbrev pub RisesAtMost : ℕ → ℕ → ℕ → Type 0
//! RisesAtMost n before after = (before ≤ after) × (after ≤ before + n)
//! ```
