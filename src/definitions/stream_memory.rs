// Made by `make package` of crates/fixed_stream/specs/Memory.antt: changes go there.

//! A source and a sink in memory that may fail, as contracts see them.
//! Their calls are numbered from 1. A call fails exactly if its number is listed.
//!
//! From `crates/fixed_stream/specs/Memory.antt`:
//!
//! ```text
//! -- the bytes left, the most that a read returns, the numbers of the calls that fail, and the counts of calls and of
//! -- faults, which saturate
//! pub record MemoryInput : Type 0 where
//!   pub left : List ℕ
//!   pub most : ℕ
//!   pub failing : List ℕ
//!   pub calls : ℕ
//!   pub faults : ℕ
//!
//! -- the bytes taken, the most that a write takes, the same numbers and counts, and the count of writes that ran out of
//! -- memory
//! pub record MemoryOutput : Type 0 where
//!   pub taken : List ℕ
//!   pub most : ℕ
//!   pub failing : List ℕ
//!   pub calls : ℕ
//!   pub faults : ℕ
//!   pub shortages : ℕ
//!
//! -- whether the call of this number is listed
//! abbrev pub is_listed : List ℕ → ℕ → Bool
//! is_listed failing call = list_any (λ listed. listed == call) failing
//!
//! -- a read into a buffer of `room` bytes returns `result` and leads from s to s'
//! abbrev pub MemoryReadGives : MemoryInput → ℕ → Result ℕ Failed → MemoryInput → Type 0
//! MemoryReadGives s room result s' = (s'.calls ≡ next_count s.calls)
//!     × (IsErr result ↔ IsTrue (is_listed s.failing s'.calls))
//!     × MatchResult result
//!     (λ count. (count ≡ min s.most (min room (length s.left))) × (s'.left ≡ drop count s.left))
//!     (λ _. s'.left ≡ s.left)
//!     × (s'.most ≡ s.most) × (s'.failing ≡ s.failing)
//!
//! -- a write of these bytes returns `result` and leads from s to s'
//! abbrev pub MemoryWriteGives : MemoryOutput → List ℕ → Result ℕ Refusal → MemoryOutput → Type 0
//! MemoryWriteGives s bytes result s' = (s'.calls ≡ next_count s.calls)
//!     × (IsErrOf result RefusedFailed ↔ IsTrue (is_listed s.failing s'.calls))
//!     × MatchResult result
//!     (λ count. (count ≡ min s.most (length bytes)) × (s'.taken ≡ s.taken ++ take count bytes))
//!     (λ _. s'.taken ≡ s.taken)
//!     × (s'.most ≡ s.most) × (s'.failing ≡ s.failing)
//!
//! -- so many calls move `total` bytes: each but the last moves `most` of them, and the last moves the rest
//! abbrev pub IsCallsFor : ℕ → ℕ → ℕ → Type 0
//! IsCallsFor most total calls = (total ≤ most * calls) × (most * calls < total + most)
//! ```
