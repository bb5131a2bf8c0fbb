// Made by `make package` of crates/fixed_machine/specs/Answers.antt: changes go there.

//! The text of an answer, and how a line of text ends.
//!
//! From `crates/fixed_machine/specs/Answers.antt`:
//!
//! ```text
//! -- a text and a newline
//! abbrev pub ended : List ℕ → List ℕ
//! ended text = text ++ (10 ∷ [])
//!
//! -- the decimal or `none`, a verdict if there is one, and a newline
//! abbrev pub answer_text : Answer → List ℕ
//! answer_text Absent = codes "none" ++ (10 ∷ [])
//! answer_text (Bits n) = whole_text n ++ (10 ∷ [])
//! answer_text (Flagged n verdict) = whole_text n ++ (if verdict then codes " true" else codes " false") ++ (10 ∷ [])
//! ```
