// Made by `make package` of crates/fixed_poly/specs/Horner.antt: changes go there.

//! Horner's rule on the coefficients c_0 .. c_k of a polynomial, in bits; f is the fraction.
//!
//! From `crates/fixed_poly/specs/Horner.antt`:
//!
//! ```text
//! -- v_0: the last value is c_k, and before v the value is v x / 2^f, rounded down, plus c
//! abbrev pub horner_value : ℤ → ℕ → List ℤ → ℤ
//! horner_value x f [] = pos 0
//! horner_value x f (c ∷ []) = c
//! horner_value x f (c ∷ (d ∷ rest)) = exact_mul_add (horner_value x f (d ∷ rest)) x c f
//!
//! -- v_i
//! abbrev pub value_at : ℤ → ℕ → List ℤ → ℕ → ℤ
//! value_at x f coefs i = horner_value x f (drop i coefs)
//!
//! -- the greatest number below k that passes
//! abbrev pub greatest_below : (ℕ → Bool) → ℕ → Option ℕ
//! greatest_below p zero = None
//! greatest_below p (suc k) = if p k then Some k else greatest_below p k
//!
//! abbrev pub overflow_or : ℤ → Option ℕ → PolyReply ℤ
//! overflow_or v None = Value v
//! overflow_or v (Some i) = Overflow i
//!
//! -- v_i does not fit
//! abbrev pub misses : Bool → ℕ → ℕ → ℤ → List ℤ → ℕ → Bool
//! misses signed n f x coefs i = not (fits signed n (value_at x f coefs i))
//!
//! -- the greatest i for which v_i does not fit, or else v_0
//! abbrev pub horner_reply : Bool → ℕ → ℕ → ℤ → List ℤ → PolyReply ℤ
//! horner_reply signed n f x coefs =
//!     overflow_or (value_at x f coefs 0) (greatest_below (misses signed n f x coefs) (length coefs))
//!
//! -- a reply, by the whole number of its value
//! abbrev pub reply_map : {T : Type 0} → (T → ℤ) → PolyReply T → PolyReply ℤ
//! reply_map value (Value v) = Value (value v)
//! reply_map value (Overflow i) = Overflow i
//!
//! -- a reply as a result
//! abbrev pub as_result : {T : Type 0} → PolyReply T → Result T StepOverflow
//! as_result (Value v) = Ok v
//! as_result (Overflow i) = Err (record { step = i })
//! ```
