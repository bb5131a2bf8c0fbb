// Made by `make package` of crates/fixed_machine/specs/Meaning.antt: changes go there.

//! The meaning of a script: the run of its header and its lines.
//!
//! From `crates/fixed_machine/specs/Meaning.antt`:
//!
//! ```text
//! -- ---- the header
//! -- registers of bits 0
//! abbrev pub zeros : List ℕ → List Cell
//! zeros = map (λ f. record { bits = pos 0; fraction = f })
//!
//! abbrev pub fractions_of : ScriptHeader → List ℕ
//! fractions_of h = h.first ∷ h.others
//!
//! abbrev pub start : ScriptHeader → State
//! start h = record { word = h.word; registers = zeros (fractions_of h) }
//!
//! abbrev pub has_wide : WordName → List ℕ → Bool
//! has_wide word fractions = list_any (λ f. nat_lt (width word) f) fractions
//!
//! -- the state that a header gives, if no fraction is wider than the word
//! abbrev pub started : Option ScriptHeader → Result (State × List ℕ) Cause
//! started None = Err (Syntax 1)
//! started (Some h) = if has_wide h.word (fractions_of h) then Err (OutOfRange 1) else Ok (start h, [])
//!
//! -- ---- the lines
//! -- the first cause, or the move and the answer's text
//! abbrev pub step_by : Row → State → ℕ → Option ScriptLine → Result (State × List ℕ) Cause
//! step_by row s k None = Err (Syntax k)
//! step_by row s k (Some line) = option_map_or Err (cause_by row s line k) (Ok (move_by row s line, answer_text (answer_by row s line)))
//!
//! -- ---- the script
//! -- by a row, and by what reads a piece as a line
//! abbrev pub run_by : Row → (List ℕ → Option ScriptLine) → List ℕ → Run State Cause
//! run_by row read script = run_of (λ piece. started (header_of_piece piece)) (λ s k piece. step_by row s k (read piece)) script
//!
//! unfoldable pub script_run : List ℕ → Run State Cause
//! script_run script = run_by row_by line_of_piece script
//!
//! abbrev pub meaning : List ℕ → Meaning Cause
//! meaning script = meaning_of (script_run script)
//! ```
