// Made by `make package` of crates/fixed_calc/specs/Headline.antt: changes go there.

//! What a call of the program does to its source, its sink and its errors, by its status: two facts for all calls, three
//! for a script, one for a demonstration, and the line for the errors. The words alone decide on Usage.
//! `source` and `source'`, `sink` and `sink'` are their states before and after the call.
//!
//! From `crates/fixed_calc/specs/Headline.antt`:
//!
//! ```text
//! -- ---- words
//!
//! -- a script has at most this many bytes
//! abbrev pub limit : ℕ
//! limit = 67108864
//!
//! -- the input, if the source states it, has at most `limit` bytes, was read to its end, and P holds for it
//! abbrev pub ReadWhole : Option (List ℕ) → Option (List ℕ) → (List ℕ → Type 0) → Type 0
//! ReadWhole None left P = ⊤
//! ReadWhole (Some input) left P = (length input ≤ limit) × (left ≡ Some []) × P input
//!
//! -- a prefix of the bytes was taken
//! abbrev pub AppendsPrefix : Option (List ℕ) → Option (List ℕ) → List ℕ → Type 0
//! AppendsPrefix old new bytes = (n : ℕ) × Appends old new (take n bytes)
//!
//! -- a prefix of the bytes was taken, and not all
//! abbrev pub AppendsProperPrefix : Option (List ℕ) → Option (List ℕ) → List ℕ → Type 0
//! AppendsProperPrefix old new bytes = (n : ℕ) × (n < length bytes) × Appends old new (take n bytes)
//!
//! -- the bytes are the output that the input means, if the source states the input
//! abbrev pub IsOutputOf : Option (List ℕ) → List ℕ → Type 0
//! IsOutputOf left bytes = IfSome left (λ input. meaning input ≡ Output bytes)
//!
//! -- a prefix of the output was taken, or nothing if the meaning is a fault
//! abbrev pub TookPrefixOf : Option (List ℕ) → Option (List ℕ) → Meaning Cause → Type 0
//! TookPrefixOf old new (Output bytes) = AppendsPrefix old new bytes
//! TookPrefixOf old new (Fault cause) = Keeps old new
//!
//! -- no write was refused
//! abbrev pub IsUnrefused : SinkState → SinkState → Type 0
//! IsUnrefused sink sink' = (sink'.faults ≡ sink.faults) × (sink'.shortages ≡ sink.shortages)
//!
//! -- a count did not rise, and is not saturated
//! abbrev pub HasNoFault : ℕ → ℕ → Type 0
//! HasNoFault before now = (now ≡ before) × (now ≢ last_count)
//!
//! -- ---- the facts of each call
//!
//! -- ReadFault: the source's count of faults rose in this call, or is saturated. Other statuses: it did not rise
//! abbrev pub FaultsOfStatus : SourceState → SourceState → Status → Type 0
//! FaultsOfStatus source source' ReadFault = RoseOrLast source.faults source'.faults
//! FaultsOfStatus source source' _ = source'.faults ≡ source.faults
//!
//! -- WriteFault: the sink's count of faults rose in this call, or is saturated. Memory: no write was refused, or one was
//! -- because memory ran out. Other statuses: no write was refused. So if the count of faults rose, and that of shortages
//! -- did not and is not saturated, the status is WriteFault
//! abbrev pub CountsOfStatus : SinkState → SinkState → Status → Type 0
//! CountsOfStatus sink sink' WriteFault = RoseOrLast sink.faults sink'.faults
//! CountsOfStatus sink sink' Memory = IsUnrefused sink sink' ⊎ RoseOrLast sink.shortages sink'.shortages
//! CountsOfStatus sink sink' _ = IsUnrefused sink sink'
//!
//! -- ---- the facts of a script
//!
//! -- Done, WriteFault: the script was read whole, its meaning is an output, and the sink took all of it, or a prefix.
//! -- Script: the script was read whole, and its meaning is that fault. Memory: the sink took a prefix of the output, or
//! -- nothing if the meaning is a fault
//! abbrev pub IsEndOfScript : SourceState → SourceState → SinkState → SinkState → Status → Type 0
//! IsEndOfScript source source' sink sink' Done = ReadWhole source.left source'.left (λ input. (bytes : List ℕ) × (meaning input ≡ Output bytes) × Appends sink.taken sink'.taken bytes)
//! IsEndOfScript source source' sink sink' WriteFault = ReadWhole source.left source'.left (λ input. (bytes : List ℕ) × (meaning input ≡ Output bytes) × AppendsPrefix sink.taken sink'.taken bytes)
//! IsEndOfScript source source' sink sink' (Script cause) = ReadWhole source.left source'.left (λ input. meaning input ≡ Fault cause)
//! IsEndOfScript source source' sink sink' Memory = IfSome source.left (λ input. TookPrefixOf sink.taken sink'.taken (meaning input))
//! IsEndOfScript source source' sink sink' _ = ⊤
//!
//! -- P holds exactly if more than the limit was taken; a source that states the bytes left before the call also states
//! -- them after it
//! abbrev pub WhenTooLong : Option (List ℕ) → Option (List ℕ) → Type 0 → Type 0
//! WhenTooLong None left P = ⊤
//! WhenTooLong (Some input) None P = ⊥
//! WhenTooLong (Some input) (Some rest) P = P ↔ limit + length rest < length input
//!
//! -- the status is that of the meaning, with its whole output; or memory ran out
//! abbrev pub IsComplete : SinkState → SinkState → Meaning Cause → Status → Type 0
//! IsComplete sink sink' (Output bytes) status = (status ≡ Memory) ⊎ ((status ≡ Done) × Appends sink.taken sink'.taken bytes)
//! IsComplete sink sink' (Fault cause) status = (status ≡ Memory) ⊎ (status ≡ Script cause)
//!
//! -- if neither count of faults rose or is saturated, the status of a script of at most the limit is that one
//! abbrev pub WhenComplete : SourceState → SourceState → SinkState → SinkState → Status → Type 0
//! WhenComplete source source' sink sink' status =
//!     HasNoFault source.faults source'.faults → HasNoFault sink.faults sink'.faults
//!     → IfSome source.left (λ input. length input ≤ limit → IsComplete sink sink' (meaning input) status)
//!
//! -- ---- the fact of a demonstration
//!
//! -- the sink took the whole summary, or a prefix of it; there is no other status
//! abbrev pub IsEndOfDemo : SinkState → SinkState → List ℕ → Status → Type 0
//! IsEndOfDemo sink sink' summary Done = Appends sink.taken sink'.taken summary
//! IsEndOfDemo sink sink' summary WriteFault = AppendsPrefix sink.taken sink'.taken summary
//! IsEndOfDemo sink sink' summary Memory = AppendsPrefix sink.taken sink'.taken summary
//! IsEndOfDemo sink sink' summary _ = ⊥
//!
//! -- ---- the line for the errors
//! abbrev pub error_line : Status → List ℕ
//! error_line Done = []
//! error_line (Script (Syntax k)) = codes "line " ++ natural_text k ++ codes ": syntax\n"
//! error_line (Script (OutOfRange k)) = codes "line " ++ natural_text k ++ codes ": out of range\n"
//! error_line (Script (FractionMismatch k)) = codes "line " ++ natural_text k ++ codes ": fraction mismatch\n"
//! error_line (Script (ZeroDivisor k)) = codes "line " ++ natural_text k ++ codes ": zero divisor\n"
//! error_line (Script (NegativeRoot k)) = codes "line " ++ natural_text k ++ codes ": negative root\n"
//! error_line (Script (Overflow k)) = codes "line " ++ natural_text k ++ codes ": overflow\n"
//! error_line Usage = codes "usage: fixed_prog [demo N]\n"
//! error_line ReadFault = codes "read fault\n"
//! error_line WriteFault = codes "write fault\n"
//! error_line TooLong = codes "too long\n"
//! error_line Memory = codes "out of memory\n"
//!
//! -- the errors took the whole line, or a proper prefix of it if a count rose or is saturated
//! abbrev pub WritesErrorLine : SinkState → SinkState → Status → Type 0
//! WritesErrorLine errors errors' status =
//!     Appends errors.taken errors'.taken (error_line status)
//!     ⊎ (AppendsProperPrefix errors.taken errors'.taken (error_line status) × (RoseOrLast errors.faults errors'.faults ⊎ RoseOrLast errors.shortages errors'.shortages))
//!
//! -- ---- the number that the program ends with
//! abbrev pub code_of : Status → ℕ
//! code_of Done = 0
//! code_of (Script _) = 1
//! code_of Usage = 2
//! code_of ReadFault = 3
//! code_of WriteFault = 4
//! code_of TooLong = 5
//! code_of Memory = 6
//! ```
