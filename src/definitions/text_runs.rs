// Made by `make package` of crates/fixed_text/specs/Runs.antt: changes go there.

//! A run of a script, whatever its lines are: each piece moves a state and prints, or has a cause, which ends the run.
//!
//! From `crates/fixed_text/specs/Runs.antt`:
//!
//! ```text
//! -- how it ends: with the state, if there is one, all that is printed, and the first cause, if there is one
//! pub record Run (S C : Type 0) : Type 0 where
//!   pub state : Option S
//!   pub output : List ℕ
//!   pub cause : Option C
//!
//! -- one piece, by the state that it moves to and what it prints, or by its cause; and then the pieces after it
//! abbrev pub run_then : {S C : Type 0} → Option S → Result (S × List ℕ) C → (S → Run S C) → Run S C
//! run_then s (Ok moved) next = let rest = next moved.0 in record { state = rest.state; output = moved.1 ++ rest.output; cause = rest.cause }
//! run_then s (Err c) next = record { state = s; output = []; cause = Some c }
//!
//! -- the lines, which are the pieces from number k on
//! unfoldable pub lines_from : {S C : Type 0} → (S → ℕ → List ℕ → Result (S × List ℕ) C) → S → ℕ → List (List ℕ) → Run S C
//! lines_from line s k [] = record { state = Some s; output = []; cause = None }
//! lines_from line s k (p ∷ ps) = run_then (Some s) (line s k p) (λ t. lines_from line t (k + 1) ps)
//!
//! -- the first piece, which is empty if the script is, and then the lines
//! abbrev pub run_of : {S C : Type 0} → (List ℕ → Result (S × List ℕ) C) → (S → ℕ → List ℕ → Result (S × List ℕ) C) → List ℕ → Run S C
//! run_of first line script = run_then None (first (slice_index_or (pieces script) 0 [])) (λ s. lines_from line s 2 (drop 1 (pieces script)))
//!
//! -- its meaning: the first cause, or all that is printed if there is none
//! pub data Meaning (C : Type 0) : Type 0 where
//!   Output : (bytes : List ℕ) → Meaning C
//!   Fault : C → Meaning C
//!
//! abbrev pub meaning_of : {S C : Type 0} → Run S C → Meaning C
//! meaning_of run = option_map_or Fault run.cause (Output run.output)
//! ```
