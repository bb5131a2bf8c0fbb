// Made by `make package` of crates/fixed_text/specs/Answers.antt: changes go there.

//! What the calls of a run return.
//!
//! From `crates/fixed_text/specs/Answers.antt`:
//!
//! ```text
//! -- why nothing was read; any piece may be refused because memory ran out
//! abbrev pub IsLineFault : {A : Type 0} → Reading A → LineFault → Type 0
//! IsLineFault reading Unformed = reading ≡ Malformed
//! IsLineFault reading Unfit = reading ≡ Misfit
//! IsLineFault reading Wanting = Unit {0}
//!
//! -- what was read, as the view shows it, or why nothing was read
//! abbrev pub IsAnswerOfReading : {A B : Type 0} → (B → A) → Reading A → Result B LineFault → Type 0
//! IsAnswerOfReading view reading (Ok x) = reading ≡ Read (view x)
//! IsAnswerOfReading view reading (Err refusal) = IsLineFault reading refusal
//!
//! -- a line changes the state and adds what it prints
//! abbrev pub IsStepOfLine : {S : Type 0} → Reading (S × List ℕ) → Result (Unit {0}) LineFault → S → List ℕ → List ℕ → Type 0
//! IsStepOfLine reading (Ok _) state before now = (bytes : List ℕ) × (reading ≡ Read (state, bytes)) × (now ≡ before ++ bytes)
//! IsStepOfLine reading (Err refusal) state before now = IsLineFault reading refusal
//!
//! -- ---- how a run ends
//! -- the cause of a fault; any run may end because memory ran out
//! abbrev pub EndsBy : Meaning PieceCause → RunFault → Type 0
//! EndsBy meaning (Syntax k) = meaning ≡ Fault (NoForm k)
//! EndsBy meaning (OutOfRange k) = meaning ≡ Fault (NoRange k)
//! EndsBy meaning Memory = Unit {0}
//!
//! abbrev pub IsAnswerOfRun : Meaning PieceCause → Result (List ℕ) RunFault → Type 0
//! IsAnswerOfRun meaning (Ok bytes) = meaning ≡ Output bytes
//! IsAnswerOfRun meaning (Err fault) = EndsBy meaning fault
//! ```
