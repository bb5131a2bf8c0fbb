// Made by `make package` of crates/fixed_calc/specs/Spelled.antt: changes go there.

//! A script in which each line that may name a rounding names one.
//!
//! From `crates/fixed_calc/specs/Spelled.antt`:
//!
//! ```text
//! -- the line, with the rounding that it has
//! abbrev pub spelled_line : ScriptLine → ScriptLine
//! spelled_line (SetTo dest k) = SetTo dest k
//! spelled_line (Apply dest policy op xs None) = Apply dest policy op xs (default_rounding op)
//! spelled_line (Apply dest policy op xs (Some rounding)) = Apply dest policy op xs (Some rounding)
//!
//! -- what a piece is spelled as; or its number, if it is not a header, or a line, in its place
//! abbrev pub spelled_piece : {A : Type 0} → (A → List ℕ) → ℕ → Option A → Result (Unit {0} × List ℕ) ℕ
//! spelled_piece text k None = Err k
//! spelled_piece text k (Some x) = Ok (tt, ended (text x))
//!
//! abbrev pub spelled_at : Unit {0} → ℕ → List ℕ → Result (Unit {0} × List ℕ) ℕ
//! spelled_at _ k piece = spelled_piece (λ line. line_text (spelled_line line)) k (line_of_piece piece)
//!
//! -- the run that prints the script spelled out
//! abbrev pub spelled_run : List ℕ → Run (Unit {0}) ℕ
//! spelled_run script = run_of (λ piece. spelled_piece header_text 1 (header_of_piece piece)) spelled_at script
//!
//! abbrev pub spelled : List ℕ → Meaning ℕ
//! spelled script = meaning_of (spelled_run script)
//!
//! -- the script spelled out, or the number of the malformed piece; or memory ran out
//! abbrev pub IsAnswerOfSpelling : Meaning ℕ → Result (List ℕ) ExplicitFault → Type 0
//! IsAnswerOfSpelling spelling (Ok script) = spelling ≡ Output script
//! IsAnswerOfSpelling spelling (Err (Syntax k)) = spelling ≡ Fault k
//! IsAnswerOfSpelling spelling (Err Memory) = ⊤
//!
//! -- the law: a script that is spelled out means the same, faults and their lines included
//! abbrev pub KeepsMeaning : Type 0
//! KeepsMeaning = (script bytes : List ℕ) → spelled script ≡ Output bytes → meaning bytes ≡ meaning script
//! ```
