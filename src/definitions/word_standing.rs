// Made by `make package` of crates/fixed_word/specs/Standing.antt: changes go there.

//! What an outcome says of the number that it stands for.
//!
//! From `crates/fixed_word/specs/Standing.antt`:
//!
//! ```text
//! -- whether x fits, lies above the range or lies below it
//! abbrev pub side_of : Bool → ℕ → ℤ → Side
//! side_of signed n x = if int_lt x (lowest signed n) then Below else (if int_lt (highest signed n) x then Above else Fits)
//!
//! -- the outcome stands for x
//! pub record StandsFor {T : Type 0} (value : T → ℤ) (signed : Bool) (n : ℕ) (x : ℤ) (outcome : Outcome T) : Type 0 where
//!   pub wrapped : value outcome.wrapped ≡ wrap signed n x
//!   pub side : outcome.side ≡ side_of signed n x
//!
//! -- the outcome stands for the row's number; there is no outcome if the row has no number
//! abbrev pub IsOutcomeOfRow : {T : Type 0} → (T → ℤ) → Bool → ℕ → Option ℤ → Option (Outcome T) → Type 0
//! IsOutcomeOfRow value signed n row None = row ≡ None
//! IsOutcomeOfRow value signed n row (Some outcome) = (x : ℤ) × (row ≡ Some x) × StandsFor value signed n x outcome
//!
//! -- y is what an integer keeps of x: they differ by a multiple of 2 ^ n, and are equal where one of them fits
//! pub record IsKept (signed : Bool) (n : ℕ) (x y : ℤ) : Type 0 where
//!   pub bits : Congruent (2 ^ n) x y
//!   pub same : InRange signed n x ⊎ InRange signed n y → x ≡ y
//! ```
