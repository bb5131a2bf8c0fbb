// Made by `make package` of crates/fixed_filter/specs/Replies.antt: changes go there.

//! What a filter answers: its products, the newest sample first, are added one after the other to 0.
//! s are the places by which a product moves down to those of the output; ps are the pairs of taps and samples.
//!
//! From `crates/fixed_filter/specs/Replies.antt`:
//!
//! ```text
//! -- acc_t: the first t products
//! abbrev pub accumulator : ℤ → List (ℤ × ℤ) → ℕ → ℤ
//! accumulator s ps t = dot s (pos 0) (take t ps)
//!
//! -- acc_(t + 1) does not fit
//! abbrev pub misses : Bool → ℕ → ℤ → List (ℤ × ℤ) → ℕ → Bool
//! misses signed n s ps t = not (fits signed n (accumulator s ps (t + 1)))
//!
//! -- the least number below k that passes
//! abbrev pub least_below : (ℕ → Bool) → ℕ → Option ℕ
//! least_below p zero = None
//! least_below p (suc k) = option_or (least_below p k) (if p k then Some k else None)
//!
//! abbrev pub overflow_or : ℤ → Option ℕ → Reply ℤ
//! overflow_or v None = Value v
//! overflow_or v (Some t) = Overflow t
//!
//! -- the least t for which acc_(t + 1) does not fit, or else acc_k
//! abbrev pub filter_reply : Bool → ℕ → ℤ → List (ℤ × ℤ) → Reply ℤ
//! filter_reply signed n s ps = overflow_or (accumulator s ps (length ps)) (least_below (misses signed n s ps) (length ps))
//!
//! -- a reply, by the whole number of its value
//! abbrev pub reply_map : {T : Type 0} → (T → ℤ) → Reply T → Reply ℤ
//! reply_map value (Value v) = Value (value v)
//! reply_map value (Overflow t) = Overflow t
//!
//! -- a state after a reply: moved by a value, and the same after an overflow
//! abbrev pub state_after : {T S : Type 0} → S → (T → S) → Reply T → S
//! state_after same moved (Value v) = moved v
//! state_after same moved (Overflow t) = same
//!
//! -- a reply as a result
//! abbrev pub as_result : {T : Type 0} → Reply T → Result T TapOverflow
//! as_result (Value v) = Ok v
//! as_result (Overflow t) = Err (record { tap = t })
//!
//! abbrev pub result_map : {T : Type 0} → (T → ℤ) → Result T TapOverflow → Result ℤ TapOverflow
//! result_map value (Ok v) = Ok (value v)
//! result_map value (Err stop) = Err stop
//! ```
