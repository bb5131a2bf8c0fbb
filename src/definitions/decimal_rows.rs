// Made by `make package` of crates/fixed_decimal/specs/Rows.antt: changes go there.

//! What calls return for the row of a text, which is a number of any size or an error.
//!
//! From `crates/fixed_decimal/specs/Rows.antt`:
//!
//! ```text
//! abbrev pub result_map : {A B E : Type 0} → (A → B) → Result A E → Result B E
//! result_map f (Ok x) = Ok (f x)
//! result_map f (Err e) = Err e
//!
//! -- the outcome stands for the row's number, or the error is the row's
//! abbrev pub IsOutcomeOf : {T E : Type 0} → (T → ℤ) → Bool → ℕ → Result ℤ E → Result (Outcome T) E → Type 0
//! IsOutcomeOf value signed n (Ok x) (Ok outcome) = StandsFor value signed n x outcome
//! IsOutcomeOf value signed n (Err e) (Err fault) = fault ≡ e
//! IsOutcomeOf value signed n (Ok x) (Err fault) = ⊥
//! IsOutcomeOf value signed n (Err e) (Ok outcome) = ⊥
//!
//! -- the row's number where it fits, and otherwise an error
//! abbrev pub checked_decimal : Bool → ℕ → Result ℤ DecimalError → Result ℤ DecimalError
//! checked_decimal signed n (Ok x) = if fits signed n x then Ok x else Err Overflow
//! checked_decimal signed n (Err e) = Err e
//!
//! -- the number of a constant's text, to the nearest unit, if the fraction is at most the width and the number fits
//! abbrev pub literal : Bool → ℕ → ℕ → List ℕ → Option ℤ
//! literal signed n f text = if nat_le f n then result_ok (checked_decimal signed n (decimal_row text f Even)) else None
//! ```
