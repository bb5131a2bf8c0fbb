// Made by `make package` of crates/fixed_calc/specs/Calls.antt: changes go there.

//! Which calls a run makes of its source, its sink and its errors, in terms of what one read or write may do.
//!
//! From `crates/fixed_calc/specs/Calls.antt`:
//!
//! ```text
//! -- ---- reads
//!
//! -- `gives s room result s'`: a read into a buffer of `room` bytes returns `result`, and leads from s to s'
//! abbrev pub Reads : Type 0 → Type 1
//! Reads S = S → ℕ → Result ℕ Failed → S → Type 0
//!
//! -- the length of the buffer of each read
//! abbrev pub buffer_size : ℕ
//! buffer_size = 4096
//!
//! -- so many reads in a row led from s to s'. Each returned some bytes, and all together `total`
//! abbrev pub GaveBytes : {S : Type 0} → Reads S → ℕ → ℕ → S → S → Type 0
//! GaveBytes gives zero total s s' = (total ≡ 0) × (s' ≡ s)
//! GaveBytes {S} gives (suc calls) total s s' = (before : ℕ) × (count : ℕ) × (t : S)
//!     × GaveBytes gives calls before s t × (0 < count) × (total ≡ before + count) × gives t buffer_size (Ok count) s'
//!
//! -- so many reads returned `total` bytes, within the limit, and the next read, which is the last, returned `last`
//! abbrev pub ReadsUntil : {S : Type 0} → Reads S → ℕ → ℕ → Result ℕ Failed → S → S → Type 0
//! ReadsUntil {S} gives calls total last s s' = (t : S)
//!     × GaveBytes gives calls total s t × (total ≤ limit) × gives t buffer_size last s'
//!
//! -- the reads of a run with this status: the last one failed, exceeded the limit, or met the end. If memory ran out,
//! -- there may have been no such read
//! abbrev pub ReadsOfStatus : {S : Type 0} → Reads S → S → S → Status → Type 0
//! ReadsOfStatus gives s s' ReadFault = (calls : ℕ) × (total : ℕ) × (failed : Failed) × ReadsUntil gives calls total (Err failed) s s'
//! ReadsOfStatus gives s s' TooLong = (calls : ℕ) × (total : ℕ) × (count : ℕ) × (limit < total + count) × ReadsUntil gives calls total (Ok count) s s'
//! ReadsOfStatus gives s s' Memory = ((calls : ℕ) × (total : ℕ) × GaveBytes gives calls total s s' × (total ≤ limit)) ⊎ ((calls : ℕ) × (total : ℕ) × ReadsUntil gives calls total (Ok 0) s s')
//! ReadsOfStatus gives s s' _ = (calls : ℕ) × (total : ℕ) × ReadsUntil gives calls total (Ok 0) s s'
//!
//! -- ---- writes
//!
//! -- `gives s bytes result s'`: a write that offers these bytes returns `result`, and leads from s to s'
//! abbrev pub Writes : Type 0 → Type 1
//! Writes S = S → List ℕ → Result ℕ Refusal → S → Type 0
//!
//! -- so many writes in a row led from s to s', and took `total` bytes. Each offered all that remained of the bytes, which
//! -- were some
//! abbrev pub TookBytes : {S : Type 0} → Writes S → List ℕ → ℕ → ℕ → S → S → Type 0
//! TookBytes gives bytes zero total s s' = (total ≡ 0) × (s' ≡ s)
//! TookBytes {S} gives bytes (suc calls) total s s' = (before : ℕ) × (count : ℕ) × (t : S)
//!     × TookBytes gives bytes calls before s t × (before < length bytes) × (total ≡ before + count)
//!     × gives t (drop before bytes) (Ok count) s'
//!
//! -- the last write, of all that remained, was refused for this reason
//! abbrev pub WritesToRefusal : {S : Type 0} → Writes S → List ℕ → Refusal → S → S → Type 0
//! WritesToRefusal {S} gives bytes refusal s s' = (calls : ℕ) × (before : ℕ) × (t : S)
//!     × TookBytes gives bytes calls before s t × (before < length bytes) × gives t (drop before bytes) (Err refusal) s'
//!
//! -- the writes of a run with this status, if P holds for its output; with other statuses there are none
//! abbrev pub WritesOfStatus : {S : Type 0} → Writes S → (List ℕ → Type 0) → S → S → Status → Type 0
//! WritesOfStatus gives P s s' Done = (bytes : List ℕ) × (calls : ℕ) × P bytes × TookBytes gives bytes calls (length bytes) s s'
//! WritesOfStatus gives P s s' WriteFault = (bytes : List ℕ) × P bytes × WritesToRefusal gives bytes RefusedFailed s s'
//! WritesOfStatus gives P s s' Memory = (s' ≡ s) ⊎ ((bytes : List ℕ) × P bytes × WritesToRefusal gives bytes RefusedMemory s s')
//! WritesOfStatus gives P s s' _ = s' ≡ s
//!
//! -- the writes of the line for the errors
//! abbrev pub WritesOfLine : {S : Type 0} → Writes S → List ℕ → S → S → Type 0
//! WritesOfLine gives line s s' =
//!     ((calls : ℕ) × TookBytes gives line calls (length line) s s') ⊎ ((refusal : Refusal) × WritesToRefusal gives line refusal s s')
//! ```
