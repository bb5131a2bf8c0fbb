// Made by `make package` of crates/fixed_stream/specs/Outside.antt: changes go there.

//! What contracts see of a source and of a sink, and how a read and a write change it.
//!
//! From `crates/fixed_stream/specs/Outside.antt`:
//!
//! ```text
//! -- the bytes left, if the source states them, and a count of faults
//! pub record SourceState : Type 0 where
//!   pub left : Option (List ℕ)
//!   pub faults : ℕ
//!
//! -- the bytes taken, if the sink states them, a count of faults and one of shortages of memory
//! pub record SinkState : Type 0 where
//!   pub taken : Option (List ℕ)
//!   pub faults : ℕ
//!   pub shortages : ℕ
//!
//! -- the greatest value of a count, at which it saturates
//! abbrev pub last_count : ℕ
//! last_count = 2 ^ 64 - 1
//!
//! -- a count, after one more event
//! abbrev pub next_count : ℕ → ℕ
//! next_count n = min (n + 1) last_count
//!
//! -- the count rose, or is saturated; it did not fall
//! abbrev pub RoseOrLast : ℕ → ℕ → Type 0
//! RoseOrLast before now = (before ≤ now) × ((before < now) ⊎ (now ≡ last_count))
//!
//! -- the count of faults after a read
//! abbrev pub FaultsAfterRead : {T E : Type 0} → ℕ → ℕ → Result T E → Type 0
//! FaultsAfterRead before now (Ok _) = now ≡ before
//! FaultsAfterRead before now (Err _) = RoseOrLast before now
//!
//! -- the counts of faults and shortages after a write
//! abbrev pub CountsAfterWrite : {T : Type 0} → SinkState → SinkState → Result T Refusal → Type 0
//! CountsAfterWrite before now (Ok _) = (now.faults ≡ before.faults) × (now.shortages ≡ before.shortages)
//! CountsAfterWrite before now (Err RefusedFailed) = RoseOrLast before.faults now.faults × (before.shortages ≤ now.shortages)
//! CountsAfterWrite before now (Err Memory) = RoseOrLast before.shortages now.shortages × (before.faults ≤ now.faults)
//! ```
